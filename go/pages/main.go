// Pages writes the database that a file shows with its logs, page by page, to another file. The file may have writers
// meanwhile.
//
// usage: pages FILE OUT
package main

import (
	"fmt"
	"os"

	"sqrescue.example/sqrescue"
)

func copied(path, out string) error {
	view, err := sqrescue.Open(path, sqrescue.Usual)
	if err != nil {
		return err
	}
	defer view.Close()
	file, err := os.OpenFile(out, os.O_WRONLY|os.O_CREATE|os.O_EXCL, 0o666)
	if err != nil {
		return err
	}
	for number := uint32(1); number <= view.Pages(); number++ {
		page, err := view.Page(number)
		if err != nil {
			return err
		}
		if _, err := file.Write(page); err != nil {
			return err
		}
	}
	fmt.Printf("%d pages of %d bytes\n", view.Pages(), view.PageSize())
	return file.Close()
}

func main() {
	if len(os.Args) != 3 {
		fmt.Fprintln(os.Stderr, "usage: pages FILE OUT")
		os.Exit(2)
	}
	if err := copied(os.Args[1], os.Args[2]); err != nil {
		fmt.Fprintln(os.Stderr, "pages:", err)
		os.Exit(3)
	}
}
