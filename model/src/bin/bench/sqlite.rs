//! The small sheet in SQLite, in memory: a row for each item, transactions of prepared statements.

use std::ffi::{c_char, c_int, c_void, CStr};
use std::ptr::{null, null_mut};

mod library {
    use super::{c_char, c_int, c_void};

    #[link(name = "sqlite3")]
    extern "C" {
        pub fn sqlite3_open_v2(
            name: *const c_char,
            connection: *mut *mut c_void,
            flags: c_int,
            system: *const c_char,
        ) -> c_int;
        pub fn sqlite3_close(connection: *mut c_void) -> c_int;
        pub fn sqlite3_prepare_v2(
            connection: *mut c_void,
            text: *const c_char,
            length: c_int,
            statement: *mut *mut c_void,
            rest: *mut *const c_char,
        ) -> c_int;
        pub fn sqlite3_finalize(statement: *mut c_void) -> c_int;
        pub fn sqlite3_bind_int64(statement: *mut c_void, place: c_int, value: i64) -> c_int;
        pub fn sqlite3_step(statement: *mut c_void) -> c_int;
        pub fn sqlite3_reset(statement: *mut c_void) -> c_int;
        pub fn sqlite3_column_int64(statement: *mut c_void, place: c_int) -> i64;
    }
}

const OK: c_int = 0;
const ROW: c_int = 100;
const DONE: c_int = 101;
/// To be read and written, made if it isn't there, by one caller at a time.
const OPEN: c_int = 0x2 | 0x4 | 0x8000;

/// A prepared statement.
struct Statement(*mut c_void);

impl Statement {
    fn new(connection: *mut c_void, text: &CStr) -> Statement {
        let mut statement = null_mut();
        let prepared = unsafe {
            library::sqlite3_prepare_v2(connection, text.as_ptr(), -1, &mut statement, null_mut())
        };
        assert_eq!(prepared, OK, "{text:?}");
        Statement(statement)
    }

    fn bind(&self, values: &[i64]) {
        for (place, value) in (1..).zip(values) {
            let bound = unsafe { library::sqlite3_bind_int64(self.0, place, *value) };
            assert_eq!(bound, OK);
        }
    }

    /// Runs it to its end, and gives each row to `row`.
    fn run(&self, mut row: impl FnMut(&Statement)) {
        let mut step = unsafe { library::sqlite3_step(self.0) };
        while step == ROW {
            row(self);
            step = unsafe { library::sqlite3_step(self.0) };
        }
        assert_eq!(step, DONE);
        assert_eq!(unsafe { library::sqlite3_reset(self.0) }, OK);
    }

    fn column(&self, place: c_int) -> i64 {
        unsafe { library::sqlite3_column_int64(self.0, place) }
    }
}

impl Drop for Statement {
    fn drop(&mut self) {
        unsafe { library::sqlite3_finalize(self.0) };
    }
}

/// A connection, closed after its statements are gone.
struct Connection(*mut c_void);

impl Drop for Connection {
    fn drop(&mut self) {
        unsafe { library::sqlite3_close(self.0) };
    }
}

/// Four items, each with its value and the number and client of the write that it is from.
pub struct Sheet {
    begin: Statement,
    commit: Statement,
    update: Statement,
    select: Statement,
    writes: i64,
    _connection: Connection,
}

impl Sheet {
    pub fn new() -> Sheet {
        let mut opened = null_mut();
        let name = c":memory:".as_ptr();
        let code = unsafe { library::sqlite3_open_v2(name, &mut opened, OPEN, null()) };
        assert_eq!(code, OK);
        let connection = Connection(opened);
        let statement = |text| Statement::new(connection.0, text);
        let create = c"CREATE TABLE sheet (item INTEGER PRIMARY KEY, number INTEGER, client INTEGER, value INTEGER)";
        statement(create).run(|_| ());
        statement(
            c"INSERT INTO sheet VALUES (0, 0, 0, 0), (1, 0, 0, 0), (2, 0, 0, 0), (3, 0, 0, 0)",
        )
        .run(|_| ());
        Sheet {
            begin: statement(c"BEGIN"),
            commit: statement(c"COMMIT"),
            update: statement(
                c"UPDATE sheet SET number = ?1, client = ?2, value = ?3 WHERE item = ?4",
            ),
            select: statement(
                c"SELECT item, number, client, value FROM sheet WHERE item BETWEEN 0 AND 3",
            ),
            writes: 0,
            _connection: connection,
        }
    }

    /// A transaction that writes all four.
    pub fn write(&mut self, client: i64, values: [i64; 4]) {
        self.begin.run(|_| ());
        self.update_all(client, values);
        self.commit.run(|_| ());
    }

    /// A transaction that reads all four, each with its number and client.
    pub fn read(&self) -> [i64; 4] {
        self.begin.run(|_| ());
        let values = self.select_all();
        self.commit.run(|_| ());
        values
    }

    /// A transaction that reads all four and then writes them.
    pub fn correct(&mut self, client: i64, values: [i64; 4]) -> [i64; 4] {
        self.begin.run(|_| ());
        let before = self.select_all();
        self.update_all(client, values);
        self.commit.run(|_| ());
        before
    }

    fn update_all(&mut self, client: i64, values: [i64; 4]) {
        self.writes += 1;
        for (item, value) in (0..).zip(values) {
            self.update.bind(&[self.writes, client, value, item]);
            self.update.run(|_| ());
        }
    }

    fn select_all(&self) -> [i64; 4] {
        let mut values = [0; 4];
        let client = self.writes.min(1);
        self.select.run(|row| {
            assert_eq!((row.column(1), row.column(2)), (self.writes, client));
            values[row.column(0) as usize] = row.column(3);
        });
        values
    }
}
