/* names.c: the names of statuses and of faults as texts that stay, which an export of the kit can't give. Not proved;
   tests/library compares them with those that sqr_status_text and sqr_fault_text write, and those of the faults of a
   deep check with what the program prints. */
#include "sqrescue.h"

const char *sqr_status_name(uint32_t status) {
    switch (status) {
    case SQR_OK: return "ok";
    case SQR_DAMAGED: return "damaged";
    case SQR_TWO_LOGS: return "two logs";
    case SQR_TOO_LARGE: return "too large";
    case SQR_AUTO_VACUUM: return "auto-vacuum";
    case SQR_NOT_A_DATABASE: return "not a database";
    case SQR_NO_MEMORY: return "no memory";
    case SQR_NO_SUCH_PAGE: return "no such page";
    case SQR_WRONG_SIZE: return "wrong size";
    case SQR_NO_ROOM: return "no room";
    case SQR_NO_SUCH_COMMIT: return "no such commit";
    case SQR_MAGIC: return "magic";
    case SQR_PAGE_SIZE: return "page size";
    case SQR_SUM: return "checksum";
    case SQR_LOG_VERSION: return "unknown log version";
    case SQR_SUPER_JOURNAL: return "super-journal";
    case SQR_PAGE_SIZES_DIFFER: return "page sizes differ";
    case SQR_NOT_THERE: return "not there";
    case SQR_NOT_READABLE: return "not readable";
    case SQR_FOLDER: return "folder";
    case SQR_NOT_A_FILE: return "not a file";
    case SQR_IN_USE: return "in use";
    case SQR_NO_LOCKS: return "no locks";
    case SQR_FILE_FAILED: return "file failed";
    case SQR_UNKNOWN_OPTIONS: return "unknown options";
    case SQR_MISUSE: return "misuse";
    case SQR_NOT_WRITABLE: return "not writable";
    case SQR_ALREADY_THERE: return "already there";
    case SQR_DISK_FULL: return "disk full";
    case SQR_SHARED_PROCESS: return "shared process";
    case SQR_COMMIT_OVERWRITTEN: return "commit overwritten";
    case SQR_NOT_JUDGED: return "not judged";
    default: return "?";
    }
}

const char *sqr_fault_name(uint32_t fault) {
    switch (fault) {
    case SQR_FAULT_MAGIC: return "Magic";
    case SQR_FAULT_PAGE_SIZE: return "PageSize";
    case SQR_FAULT_FRACTION: return "Fraction";
    case SQR_FAULT_RESERVED: return "Reserved";
    case SQR_FAULT_AUTO_VACUUM: return "AutoVacuum";
    case SQR_FAULT_KIND: return "Kind";
    case SQR_FAULT_CELL_OUTSIDE: return "CellOutside";
    case SQR_FAULT_OVERLAP: return "Overlap";
    case SQR_FAULT_FREEBLOCK: return "Freeblock";
    case SQR_FAULT_FRAGMENTS: return "Fragments";
    case SQR_FAULT_CHAIN_CUT: return "ChainCut";
    case SQR_FAULT_CHAIN_LONG: return "ChainLong";
    case SQR_FAULT_PAGE_TWICE: return "PageTwice";
    case SQR_FAULT_PAGE_OUTSIDE: return "PageOutside";
    case SQR_FAULT_PAGE_UNUSED: return "PageUnused";
    case SQR_FAULT_KEY_ORDER: return "KeyOrder";
    case SQR_FAULT_DEPTH: return "Depth";
    case SQR_FAULT_FREE_COUNT: return "FreeCount";
    case SQR_FAULT_SOURCE: return "Source";
    case SQR_FAULT_NO_MEMORY: return "NoMemory";
    case SQR_FAULT_SCHEMA_RECORD: return "SchemaRecord";
    case SQR_FAULT_POINTER_MAP: return "PointerMap";
    case SQR_FAULT_VERSION: return "Version";
    case SQR_FAULT_SCHEMA_FORMAT: return "SchemaFormat";
    case SQR_FAULT_TEXT_ENCODING: return "TextEncoding";
    case SQR_FAULT_EMPTY_PAGE: return "EmptyPage";
    case SQR_FAULT_FREEBLOCK_GAP: return "FreeblockGap";
    case SQR_FAULT_ROOT_BEHIND: return "RootBehind";
    case SQR_FAULT_FILE_CUT: return "FileCut";
    case SQR_FAULT_PAGE_COUNT: return "PageCount";
    case SQR_FAULT_SHORT_CELL: return "ShortCell";
    case SQR_FAULT_TOO_LONG: return "TooLong";
    case SQR_FAULT_NOT_RECORD: return "NotRecord";
    case SQR_FAULT_TEXT_FORM: return "TextForm";
    case SQR_FAULT_ROW_FORM: return "RowForm";
    case SQR_FAULT_OBJECT_TYPE: return "ObjectType";
    case SQR_FAULT_CREATE_TEXT: return "CreateText";
    case SQR_FAULT_ROOT_NUMBER: return "RootNumber";
    case SQR_FAULT_NAME_TWICE: return "NameTwice";
    case SQR_FAULT_TABLE_NAME: return "TableName";
    case SQR_FAULT_ROOT_KIND: return "RootKind";
    case SQR_FAULT_ENTRY_FORM: return "EntryForm";
    case SQR_FAULT_ENTRY_ORDER: return "EntryOrder";
    case SQR_FAULT_KEY_TWICE: return "KeyTwice";
    case SQR_FAULT_ENTRY_OF_NO_ROW: return "EntryOfNoRow";
    case SQR_FAULT_ROW_WITHOUT_ENTRY: return "RowWithoutEntry";
    case SQR_FAULT_ROW_TWICE: return "RowTwice";
    case SQR_FAULT_NULL_UNDER_NOT_NULL: return "NullUnderNotNull";
    case SQR_FAULT_TYPE_UNDER_STRICT: return "TypeUnderStrict";
    case SQR_FAULT_NUMBER_UNDER_TEXT: return "NumberUnderText";
    case SQR_FAULT_TEXT_UNDER_NUMERIC: return "TextUnderNumeric";
    case SQR_FAULT_ROW_ORDER: return "RowOrder";
    default: return "?";
    }
}
