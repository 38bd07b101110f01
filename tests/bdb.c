/* bdb make: a database of Berkeley DB in this folder; bdb run [nosync]: three transactions of it; bdb judge: the
   state of each folder that a line of standard input names, after its recovery. */
#include <db.h>
#include <fcntl.h>
#include <stdio.h>
#include <stdlib.h>
#include <string.h>
#include <unistd.h>

static DB_ENV *env;
static DB *db;

static int opened(const char *folder) {
    int flags = DB_CREATE | DB_RECOVER | DB_PRIVATE | DB_INIT_TXN | DB_INIT_LOG | DB_INIT_MPOOL | DB_INIT_LOCK;
    if (db_env_create(&env, 0)) return 0;
    env->set_errfile(env, NULL);
    if (env->open(env, folder, flags, 0644) || db_create(&db, env, 0)) return 0;
    return !db->open(db, NULL, "data.db", NULL, DB_BTREE, DB_CREATE | DB_AUTO_COMMIT, 0644);
}

static void run(int flags) {
    int marks = open(getenv("SQCRASH_MARKS"), O_WRONLY | O_APPEND | O_CREAT, 0644);
    for (int i = 0; i < 3; i++) {
        char key[20];
        DB_TXN *one;
        DBT name = { 0 }, value = { 0 };
        name.data = key, name.size = (u_int32_t)sprintf(key, "key %d", i);
        value.data = key, value.size = name.size;
        env->txn_begin(env, NULL, &one, 0);
        db->put(db, one, &name, &value, 0);
        one->commit(one, (u_int32_t)flags);
        if (write(marks, "commit\n", 7) != 7) exit(1);
    }
}

static void judge(void) {
    char folder[4096];
    while (fgets(folder, sizeof folder, stdin)) {
        folder[strcspn(folder, "\n")] = 0;
        int count = 0, is_open = opened(folder);
        DBC *cursor;
        DBT key = { 0 }, value = { 0 };
        if (is_open && !db->cursor(db, NULL, &cursor, 0)) while (!cursor->get(cursor, &key, &value, DB_NEXT)) count++;
        printf("%d %d keys\n", !is_open, count), fflush(stdout);
        env->close(env, 0);
    }
}

int main(int count, char **words) {
    if (!strcmp(words[1], "judge")) return judge(), 0;
    if (!opened(".")) return 1;
    if (!strcmp(words[1], "make")) return db->close(db, 0) || env->close(env, 0);
    run(count > 2 ? DB_TXN_NOSYNC : DB_TXN_SYNC);
    _exit(0); /* as if it was killed: no log is flushed */
}
