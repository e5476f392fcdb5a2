    table.parent(slot).map_or(0, |parent| i64::from(parent.number()))
