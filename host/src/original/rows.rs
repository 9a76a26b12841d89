//! The values of the sheet that is being run, by number, with the made ones after them, in the order of making.
//!
//! The original has no numbers. It makes a value by `bool.into()`, `i64.into()`, `EntityUID.into()`, `Value::set` or
//! `Value::record`, each of which is a stand-in that comes here. So the order of making is that of the original's own
//! calls. A value that is present already is handed out as it stands, so that equal values are the same piece of memory
//! and a comparison never walks what two values share.

use std::cell::RefCell;
use std::collections::HashMap;

use crate::ast::Value;
use crate::parser::Loc;

/// The content of a value over the numbers of earlier ones.
#[derive(Clone, Debug, PartialEq, Eq, Hash)]
pub enum Row {
    Bool(bool),
    Long(i64),
    Text(u32),
    Entity(u32, u32),
    Set(Vec<u32>),
    Record(Vec<(u32, u32)>),
}

/// "1,024 given and 1,024 made always fit"
pub const GREATEST_VALUES: usize = 2048;

#[derive(Default)]
struct Table {
    values: Vec<Value>,
    rows: Vec<Row>,
    place: HashMap<Row, u32>,
}

thread_local! {
    static TABLE: RefCell<Table> = RefCell::new(Table::default());
}

/// Forgets all values: a new sheet begins.
pub fn clear() {
    TABLE.with(|table| *table.borrow_mut() = Table::default());
}

/// The value of a row, which is added if it is absent. `build` gives its content without a place.
pub(crate) fn make(row: Row, build: impl FnOnce() -> Value) -> Value {
    if let Some(value) = TABLE.with(|table| {
        let table = table.borrow();
        table.place.get(&row).map(|n| table.values[*n as usize].clone())
    }) {
        return value;
    }
    let mut value = build();
    TABLE.with(|table| {
        let mut table = table.borrow_mut();
        let number = table.values.len();
        value.loc = Some(Loc(number as u32));
        table.values.push(value.clone());
        table.rows.push(row.clone());
        table.place.insert(row, number as u32);
    });
    value
}

/// How many values there are.
pub fn count() -> usize {
    TABLE.with(|table| table.borrow().values.len())
}

pub fn value(number: u32) -> Value {
    TABLE.with(|table| table.borrow().values[number as usize].clone())
}

pub fn row(number: u32) -> Row {
    TABLE.with(|table| table.borrow().rows[number as usize].clone())
}

/// The number of a value.
pub fn number(value: &Value) -> u32 {
    value.loc.as_ref().expect("a value has a row").0
}
