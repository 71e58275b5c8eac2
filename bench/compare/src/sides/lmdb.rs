//! LMDB by its C functions: written to a mapped file that is never synced, one write transaction a batch, one read transaction for all
//! lookups, a cursor for the scan.

use super::{Side, Tally, LMDB};
use crate::work::{Batch, Key};
use std::ffi::{c_char, c_int, c_uint, c_void, CString};
use std::fs;
use std::path::{Path, PathBuf};
use std::ptr::{null, null_mut};

#[repr(C)]
struct Val {
    size: usize,
    data: *mut c_void,
}

type Handle = *mut c_void;

extern "C" {
    fn mdb_env_create(env: *mut Handle) -> c_int;
    fn mdb_env_set_mapsize(env: Handle, size: usize) -> c_int;
    fn mdb_env_open(env: Handle, path: *const c_char, flags: c_uint, mode: c_uint) -> c_int;
    fn mdb_env_close(env: Handle);
    fn mdb_txn_begin(env: Handle, parent: Handle, flags: c_uint, txn: *mut Handle) -> c_int;
    fn mdb_txn_commit(txn: Handle) -> c_int;
    fn mdb_txn_abort(txn: Handle);
    fn mdb_dbi_open(txn: Handle, name: *const c_char, flags: c_uint, dbi: *mut c_uint) -> c_int;
    fn mdb_get(txn: Handle, dbi: c_uint, key: *mut Val, data: *mut Val) -> c_int;
    fn mdb_put(txn: Handle, dbi: c_uint, key: *mut Val, data: *mut Val, flags: c_uint) -> c_int;
    fn mdb_del(txn: Handle, dbi: c_uint, key: *mut Val, data: *mut Val) -> c_int;
    fn mdb_cursor_open(txn: Handle, dbi: c_uint, cursor: *mut Handle) -> c_int;
    fn mdb_cursor_get(cursor: Handle, key: *mut Val, data: *mut Val, op: c_int) -> c_int;
    fn mdb_cursor_close(cursor: Handle);
}

const NOSYNC: c_uint = 0x10000;
const RDONLY: c_uint = 0x20000;
const WRITEMAP: c_uint = 0x80000;
const NEXT: c_int = 8;
const NOTFOUND: c_int = -30798;
const MAP_SIZE: usize = 1 << 28;

pub struct Lmdb {
    folder: PathBuf,
    env: Handle,
    dbi: c_uint,
}

fn done(answer: c_int) {
    assert_eq!(answer, 0, "LMDB refuses");
}

/// The bytes as LMDB takes them; it only reads them.
fn lent(bytes: &[u8]) -> Val {
    Val { size: bytes.len(), data: bytes.as_ptr() as *mut c_void }
}

const NOTHING: Val = Val { size: 0, data: null_mut() };

/// A value of eight bytes at an address that LMDB has just handed out.
fn number(data: &Val) -> u64 {
    assert_eq!(data.size, 8);
    // SAFETY: LMDB says that eight bytes are there; they stay until the transaction ends.
    u64::from_le_bytes(unsafe { data.data.cast::<[u8; 8]>().read_unaligned() })
}

/// In memory where there is a place for it.
fn folder() -> PathBuf {
    let shared = Path::new("/dev/shm");
    let base = if shared.is_dir() { shared.to_path_buf() } else { std::env::temp_dir() };
    base.join(format!("cikolaro-bench-{}", std::process::id()))
}

impl Lmdb {
    pub fn new() -> Self {
        let mut side = Lmdb { folder: folder(), env: null_mut(), dbi: 0 };
        side.open();
        side
    }

    fn open(&mut self) {
        fs::create_dir_all(&self.folder).expect("the folder is made");
        let path = CString::new(self.folder.to_str().expect("a plain path")).expect("a plain path");
        // SAFETY: the handle is ours and the path ends in a zero byte.
        unsafe {
            done(mdb_env_create(&mut self.env));
            done(mdb_env_set_mapsize(self.env, MAP_SIZE));
            done(mdb_env_open(self.env, path.as_ptr(), NOSYNC | WRITEMAP, 0o600));
        }
        let txn = self.begin(0);
        // SAFETY: the transaction is open; no name means the one database.
        unsafe { done(mdb_dbi_open(txn, null(), 0, &mut self.dbi)) };
        commit(txn);
    }

    fn close(&mut self) {
        // SAFETY: no transaction is open, and the handle isn't used again.
        unsafe { mdb_env_close(self.env) };
        fs::remove_dir_all(&self.folder).expect("the folder is removed");
    }

    fn begin(&self, flags: c_uint) -> Handle {
        let mut txn = null_mut();
        // SAFETY: the environment is open.
        unsafe { done(mdb_txn_begin(self.env, null_mut(), flags, &mut txn)) };
        txn
    }
}

fn commit(txn: Handle) {
    // SAFETY: the transaction is open, and isn't used again.
    unsafe { done(mdb_txn_commit(txn)) };
}

fn abort(txn: Handle) {
    // SAFETY: the transaction is open, and isn't used again.
    unsafe { mdb_txn_abort(txn) };
}

impl Drop for Lmdb {
    fn drop(&mut self) {
        self.close();
    }
}

impl Side for Lmdb {
    fn name(&self) -> &'static str {
        LMDB
    }

    /// A fresh file, so that no free pages are left over.
    fn clear(&mut self) {
        self.close();
        self.open();
    }

    fn apply(&mut self, batch: &Batch) {
        let txn = self.begin(0);
        for (key, value) in &batch.changes {
            let mut key = lent(key);
            match value {
                Some(value) => {
                    let bytes = value.to_le_bytes();
                    // SAFETY: key and value are borrowed for the call.
                    unsafe { done(mdb_put(txn, self.dbi, &mut key, &mut lent(&bytes), 0)) };
                }
                // SAFETY: the key is borrowed for the call; no value is asked for.
                None => unsafe { done(mdb_del(txn, self.dbi, &mut key, null_mut())) },
            }
        }
        commit(txn);
    }

    fn lookups(&self, keys: &[Key]) -> Tally {
        let mut tally = Tally::default();
        let txn = self.begin(RDONLY);
        for key in keys {
            let mut data = NOTHING;
            // SAFETY: the key is borrowed for the call, the answer is ours.
            match unsafe { mdb_get(txn, self.dbi, &mut lent(key), &mut data) } {
                0 => tally.value(number(&data)),
                answer => assert_eq!(answer, NOTFOUND),
            }
        }
        abort(txn);
        tally
    }

    fn scan(&self) -> Tally {
        let mut tally = Tally::default();
        let txn = self.begin(RDONLY);
        let mut cursor = null_mut();
        // SAFETY: the transaction is open.
        unsafe { done(mdb_cursor_open(txn, self.dbi, &mut cursor)) };
        let (mut key, mut data) = (NOTHING, NOTHING);
        // SAFETY: the cursor is open; a new one begins with the first entry.
        while unsafe { mdb_cursor_get(cursor, &mut key, &mut data, NEXT) } == 0 {
            // SAFETY: LMDB says that so many bytes are there; they stay until the transaction ends.
            let bytes = unsafe { std::slice::from_raw_parts(key.data.cast::<u8>(), key.size) };
            tally.entry(bytes, number(&data));
        }
        // SAFETY: the cursor is open, and isn't used again.
        unsafe { mdb_cursor_close(cursor) };
        abort(txn);
        tally
    }
}
