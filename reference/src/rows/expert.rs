//! The rows of VENTO Expert, in the order of the maker's table. Its password, cloud, schedule and write-only rows are none.

use super::Access::{AllFive, Three};
use super::Stars::{One, Two};
use super::{
    CLOCK, ID_ROW, Row, Span, UNIT_TYPE_ROW, byte, bytes, date, free, number, only, read_only,
    switch, text, to,
};

/// Fan speeds of a speed mode.
const FAN_SPEED: &[Span] = &[to(10, 255)];
/// Minutes and hours.
const SETPOINT: &[(u8, u8)] = &[(0, 59), (0, 23)];

pub static ROWS: [Row; 50] = [
    switch(0x0001),
    byte(0x0002, AllFive, &[to(1, 3), only(255)]),
    read_only(0x0006, 1),
    byte(0x0007, AllFive, &[to(0, 2)]),
    read_only(0x000B, 3),
    switch(0x000F),
    switch(0x0014),
    switch(0x0016).starred(One),
    byte(0x0019, AllFive, &[to(40, 80)]),
    read_only(0x0024, 2),
    read_only(0x0025, 1),
    read_only(0x002D, 1).starred(One),
    read_only(0x0032, 1),
    byte(0x003A, AllFive, FAN_SPEED).starred(Two),
    byte(0x003B, AllFive, FAN_SPEED).starred(Two),
    byte(0x003C, AllFive, FAN_SPEED).starred(Two),
    byte(0x003D, AllFive, FAN_SPEED).starred(Two),
    byte(0x003E, AllFive, FAN_SPEED).starred(Two),
    byte(0x003F, AllFive, FAN_SPEED).starred(Two),
    byte(0x0044, AllFive, &[to(0, 255)]),
    read_only(0x004A, 2),
    read_only(0x004B, 2),
    number(0x0063, AllFive, 2, &[to(70, 365)]).starred(Two),
    read_only(0x0064, 3),
    byte(0x0066, AllFive, &[to(0, 60)]),
    bytes(0x006F, CLOCK),
    date(),
    switch(0x0072),
    read_only(ID_ROW, 16),
    read_only(0x007E, 4),
    read_only(0x0083, 1),
    read_only(0x0086, 6),
    read_only(0x0088, 1),
    byte(0x0094, AllFive, &[to(1, 2)]),
    text(0x0095, 1, 32),
    text(0x0096, 8, 64),
    byte(0x0099, Three, &[only(48), to(50, 52)]),
    byte(0x009A, AllFive, &[to(1, 13)]),
    switch(0x009B),
    free(0x009C, 4),
    free(0x009D, 4),
    free(0x009E, 4),
    read_only(0x00A3, 4),
    byte(0x00B7, AllFive, &[to(0, 2)]),
    byte(0x00B8, AllFive, &[to(5, 100)]).starred(One),
    read_only(UNIT_TYPE_ROW, 2),
    bytes(0x0302, SETPOINT),
    bytes(0x0303, SETPOINT),
    read_only(0x0304, 1),
    read_only(0x0305, 1).starred(One),
];
