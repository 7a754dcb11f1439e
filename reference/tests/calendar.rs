//! The calendar holds the dates that the system's `date` knows, with their weekdays, and no other value.

mod dates;

use reference::{rows, units};

#[test]
fn the_calendar_holds_every_date_and_nothing_else() {
    let dates = dates::all();
    for unit_type in units::ALL {
        let row = rows::find(unit_type, rows::CALENDAR_ROW).expect("the calendar is a row");
        for value in dates::candidates() {
            assert_eq!(row.contains(&value), dates.contains(&value), "{value:?}");
        }
    }
}
