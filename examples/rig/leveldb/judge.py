"""Opens the LevelDB database in this folder, and names its state by what it holds; a database that can't be opened is a
fault."""
import hashlib
import sys
import plyvel

try:
    rows = list(plyvel.DB('.', create_if_missing=True, paranoid_checks=True, error_if_exists=False))
except plyvel.Error as error:
    print(error)
    sys.exit(1)
print(len(rows), 'rows', hashlib.sha256(repr(rows).encode()).hexdigest()[:16])
