-- Takes the lines of `judge`, in the file verdicts, into a table.
CREATE TABLE verdict(status INTEGER, said TEXT, file TEXT);
.mode ascii
.separator "\t" "\n"
.import verdicts verdict
