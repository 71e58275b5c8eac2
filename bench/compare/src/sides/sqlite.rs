//! SQLite by its C functions: a table in memory, prepared statements, one transaction a batch.

use super::{Side, Tally, SQLITE};
use crate::work::{Batch, Key};
use std::ffi::{c_char, c_int, c_void, CStr};
use std::ptr::{null, null_mut};

type Handle = *mut c_void;

extern "C" {
    fn sqlite3_open(name: *const c_char, db: *mut Handle) -> c_int;
    fn sqlite3_close(db: Handle) -> c_int;
    fn sqlite3_exec(db: Handle, sql: *const c_char, call: *const c_void, arg: *mut c_void, error: *mut Handle)
        -> c_int;
    fn sqlite3_prepare_v2(
        db: Handle,
        sql: *const c_char,
        len: c_int,
        statement: *mut Handle,
        tail: *mut *const c_char,
    ) -> c_int;
    fn sqlite3_bind_blob(
        statement: Handle,
        index: c_int,
        bytes: *const c_void,
        len: c_int,
        destroy: *const c_void,
    ) -> c_int;
    fn sqlite3_bind_int64(statement: Handle, index: c_int, value: i64) -> c_int;
    fn sqlite3_step(statement: Handle) -> c_int;
    fn sqlite3_reset(statement: Handle) -> c_int;
    fn sqlite3_finalize(statement: Handle) -> c_int;
    fn sqlite3_column_int64(statement: Handle, column: c_int) -> i64;
    fn sqlite3_column_blob(statement: Handle, column: c_int) -> *const c_void;
    fn sqlite3_column_bytes(statement: Handle, column: c_int) -> c_int;
}

const ROW: c_int = 100;
const DONE: c_int = 101;

/// An open database and its statements.
pub struct Sqlite {
    db: Handle,
    set: Handle,
    remove: Handle,
    get: Handle,
    all: Handle,
}

impl Sqlite {
    pub fn new() -> Self {
        let mut db = null_mut();
        // SAFETY: the name ends in a zero byte.
        assert_eq!(unsafe { sqlite3_open(c":memory:".as_ptr(), &mut db) }, 0);
        execute(db, c"CREATE TABLE entry (key BLOB PRIMARY KEY, value INTEGER NOT NULL) WITHOUT ROWID");
        Sqlite {
            db,
            set: prepared(
                db,
                c"INSERT INTO entry VALUES (?1, ?2) ON CONFLICT (key) DO UPDATE SET value = excluded.value",
            ),
            remove: prepared(db, c"DELETE FROM entry WHERE key = ?1"),
            get: prepared(db, c"SELECT value FROM entry WHERE key = ?1"),
            all: prepared(db, c"SELECT value, key FROM entry ORDER BY key"),
        }
    }
}

fn execute(db: Handle, sql: &CStr) {
    // SAFETY: the database is open, the text ends in a zero byte, no callback is named.
    assert_eq!(unsafe { sqlite3_exec(db, sql.as_ptr(), null(), null_mut(), null_mut()) }, 0);
}

fn prepared(db: Handle, sql: &CStr) -> Handle {
    let mut statement = null_mut();
    // SAFETY: the database is open and the text ends in a zero byte.
    assert_eq!(unsafe { sqlite3_prepare_v2(db, sql.as_ptr(), -1, &mut statement, null_mut()) }, 0);
    statement
}

/// Binds a key that outlives the step: it isn't copied.
fn bind(statement: Handle, key: &Key) {
    // SAFETY: the key is borrowed until the statement is reset.
    let answer = unsafe { sqlite3_bind_blob(statement, 1, key.as_ptr().cast(), key.len() as c_int, null()) };
    assert_eq!(answer, 0);
}

/// Whether there is a row.
fn step(statement: Handle) -> bool {
    // SAFETY: the statement is prepared.
    let answer = unsafe { sqlite3_step(statement) };
    assert!(answer == ROW || answer == DONE, "SQLite refuses");
    answer == ROW
}

fn reset(statement: Handle) {
    // SAFETY: the statement is prepared.
    assert_eq!(unsafe { sqlite3_reset(statement) }, 0);
}

/// The first column of the row.
fn value(statement: Handle) -> u64 {
    // SAFETY: the statement has a row.
    unsafe { sqlite3_column_int64(statement, 0) as u64 }
}

/// The second column of the row.
fn key<'a>(statement: Handle) -> &'a [u8] {
    // SAFETY: the statement has a row; its bytes stay until the next step, before which they are read.
    unsafe {
        let len = sqlite3_column_bytes(statement, 1) as usize;
        std::slice::from_raw_parts(sqlite3_column_blob(statement, 1).cast(), len)
    }
}

impl Drop for Sqlite {
    fn drop(&mut self) {
        for statement in [self.set, self.remove, self.get, self.all] {
            // SAFETY: the statement isn't used again.
            unsafe { sqlite3_finalize(statement) };
        }
        // SAFETY: all statements are gone, and the database isn't used again.
        assert_eq!(unsafe { sqlite3_close(self.db) }, 0);
    }
}

impl Side for Sqlite {
    fn name(&self) -> &'static str {
        SQLITE
    }

    fn clear(&mut self) {
        *self = Sqlite::new();
    }

    fn apply(&mut self, batch: &Batch) {
        execute(self.db, c"BEGIN");
        for (key, value) in &batch.changes {
            let statement = if value.is_some() { self.set } else { self.remove };
            bind(statement, key);
            if let Some(value) = value {
                // SAFETY: the statement is prepared and has a second parameter.
                assert_eq!(unsafe { sqlite3_bind_int64(statement, 2, *value as i64) }, 0);
            }
            step(statement);
            reset(statement);
        }
        execute(self.db, c"COMMIT");
    }

    fn lookups(&self, keys: &[Key]) -> Tally {
        let mut tally = Tally::default();
        execute(self.db, c"BEGIN");
        for key in keys {
            bind(self.get, key);
            if step(self.get) {
                tally.value(value(self.get));
            }
            reset(self.get);
        }
        execute(self.db, c"COMMIT");
        tally
    }

    fn scan(&self) -> Tally {
        let mut tally = Tally::default();
        while step(self.all) {
            tally.entry(key(self.all), value(self.all));
        }
        reset(self.all);
        tally
    }
}
