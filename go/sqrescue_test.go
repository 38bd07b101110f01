package sqrescue

import (
	"bytes"
	"errors"
	"io/fs"
	"os"
	"path/filepath"
	"testing"
)

// sample is a copy of the sample database and its log in a folder of its own.
func sample(t *testing.T) string {
	folder := t.TempDir()
	for _, name := range []string{"ledger.db", "ledger.db-wal"} {
		content, err := os.ReadFile(filepath.Join("..", "crates", "sqrescue", "data", name))
		if err != nil {
			t.Fatal(err)
		}
		if err := os.WriteFile(filepath.Join(folder, name), content, 0o666); err != nil {
			t.Fatal(err)
		}
	}
	return filepath.Join(folder, "ledger.db")
}

func wanted(t *testing.T, what string, isSo bool, said any) {
	t.Helper()
	if !isSo {
		t.Errorf("%s: %v", what, said)
	}
}

func TestView(t *testing.T) {
	view, err := Open(sample(t), Usual)
	if err != nil {
		t.Fatal(err)
	}
	defer view.Close()
	page, err := view.Page(1)
	wanted(t, "page 1", err == nil && bytes.HasPrefix(page, []byte("SQLite format 3")), err)
	report, err := view.Check()
	wanted(t, "check", err == nil && report.Pages == 5, err)
	commits, err := view.Commits()
	wanted(t, "commits", err == nil && commits[len(commits)-1].Frame == 10, err)
	_, err = view.Page(6)
	var refusal *Refusal
	wanted(t, "page 6", errors.As(err, &refusal) && refusal.Status == 7 && err.Error() == "no such page", err)
}

func TestRecovery(t *testing.T) {
	path := sample(t)
	out := path + ".new"
	found, err := RecoverTo(path, out, Usual)
	wanted(t, "RecoverTo", err == nil && found == Recovered{"fold", 512, 5}, err)
	again, err := Recover(path, Usual)
	wanted(t, "Recover", err == nil && again == found, err)
	one, _ := os.ReadFile(path)
	other, _ := os.ReadFile(out)
	wanted(t, "both leave the same", len(one) > 0 && bytes.Equal(one, other), len(one))
}

func TestRefusals(t *testing.T) {
	path, at := sample(t), uint32(11)
	_, err := Open(path, Options{Wait: 5000, At: &at})
	wanted(t, "no such commit", err != nil && err.Error() == "no such commit", err)
	_, err = Open(path+".none", Usual)
	wanted(t, "not there", errors.Is(err, fs.ErrNotExist), err)
	at = 10
	view, err := Open(path, Options{Wait: 5000, At: &at})
	wanted(t, "at the front", err == nil && view.Pages() == 5, err)
	view.Close()
	wanted(t, "closed", view.Pages() == 0, view.Pages())
}
