    table.parent(slot).map_or(0, |pid| i64::from(pid.number()))
