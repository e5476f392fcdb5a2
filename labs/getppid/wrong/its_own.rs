    i64::from(table.pid(slot).number())
