//! The rows of the VENTO Expert.

use super::Access::{Invert, Read, Step, Write};
use super::Size::{Between, Bytes};
use super::{row, Row};
use crate::reading::Reading::{Date, Identity, Product, Text};
use crate::reading::{
    ADDRESS, ALARM, COUNTDOWN, DAYS, DURATION, ENCRYPTION, FILTER_INDICATOR, FIRMWARE,
    LONG_DURATION, MANUAL_OR_SPEED, MILLIVOLTS, MINUTES, NIGHT_OR_PARTY, NUMBER, OPERATION,
    PERCENT, SETPOINT_STATUS, SHORT_TIME, SWITCH, TIME, TURNS, WIFI_MODE,
};
use crate::unit_type::UnitType::{self, ExpertA30, ExpertA50, ExpertDuo};

/// What the guide gives no star, one star and two stars.
const EVERY: &[UnitType] = &[ExpertA50, ExpertDuo, ExpertA30];
const NO_A30: &[UnitType] = &[ExpertA50, ExpertDuo];
const A50: &[UnitType] = &[ExpertA50];

/// Numbers ascending. A row has the name that the Micra's has where it means the same. A fan's level is 0 to 255, the Micra's fan speeds are
/// percent, so they have other names.
#[rustfmt::skip]
pub const ROWS: [Row; 50] = [
    row(EVERY, 0x0001, "unit-on-off", Bytes(1), Invert, SWITCH, "Unit On/Off"),
    row(EVERY, 0x0002, "speed-mode", Bytes(1), Step, MANUAL_OR_SPEED, "Speed number"),
    row(EVERY, 0x0006, "boost-mode", Bytes(1), Read, SWITCH, "Boost mode status"),
    row(EVERY, 0x0007, "night-party-timer", Bytes(1), Step, NIGHT_OR_PARTY, "Timer mode"),
    row(EVERY, 0x000B, "timer-countdown-time", Bytes(3), Read, COUNTDOWN, "Current countdown of the Timer mode"),
    row(EVERY, 0x000F, "humidity-sensor-activation", Bytes(1), Invert, SWITCH, "Humidity sensor activation"),
    row(EVERY, 0x0014, "relay-sensor-activation", Bytes(1), Invert, SWITCH, "Relay sensor activation"),
    row(NO_A30, 0x0016, "0-10v-sensor-activation", Bytes(1), Invert, SWITCH, "0-10 V sensor activation"),
    row(EVERY, 0x0019, "humidity-threshold", Bytes(1), Step, PERCENT, "Humidity threshold setpoint"),
    row(EVERY, 0x0024, "rtc-battery-voltage", Bytes(2), Read, MILLIVOLTS, "Current RTC battery voltage"),
    row(EVERY, 0x0025, "humidity", Bytes(1), Read, PERCENT, "Current humidity"),
    row(NO_A30, 0x002D, "0-10v-sensor-signal", Bytes(1), Read, PERCENT, "Current 0-10 V sensor signal value"),
    row(EVERY, 0x0032, "relay-sensor-status", Bytes(1), Read, SWITCH, "Current relay sensor state"),
    row(A50, 0x003A, "supply-fan-level-1", Bytes(1), Step, NUMBER, "Supply fan speed in 1st speed mode"),
    row(A50, 0x003B, "exhaust-fan-level-1", Bytes(1), Step, NUMBER, "Exhaust fan speed in 1st speed mode"),
    row(A50, 0x003C, "supply-fan-level-2", Bytes(1), Step, NUMBER, "Supply fan speed in 2nd speed mode"),
    row(A50, 0x003D, "exhaust-fan-level-2", Bytes(1), Step, NUMBER, "Exhaust fan speed in 2nd speed mode"),
    row(A50, 0x003E, "supply-fan-level-3", Bytes(1), Step, NUMBER, "Supply fan speed in 3rd speed mode"),
    row(A50, 0x003F, "exhaust-fan-level-3", Bytes(1), Step, NUMBER, "Exhaust fan speed in 3rd speed mode"),
    row(EVERY, 0x0044, "manual-fan-level", Bytes(1), Step, NUMBER, "Speed of the fans in the manual speed setting mode"),
    row(EVERY, 0x004A, "fan-1-speed", Bytes(2), Read, TURNS, "Fan 1 speed"),
    row(EVERY, 0x004B, "fan-2-speed", Bytes(2), Read, TURNS, "Fan 2 speed"),
    row(A50, 0x0063, "filter-replacement-timer", Bytes(2), Step, DAYS, "Filter replacement timer setup"),
    row(EVERY, 0x0064, "filter-replacement-countdown", Bytes(3), Read, DURATION, "Timer countdown to filter replacement"),
    row(EVERY, 0x0066, "boost-turn-off-delay", Bytes(1), Step, MINUTES, "Setpoint of the Boost mode deactivation delay"),
    row(EVERY, 0x006F, "rtc-time", Bytes(3), Write, TIME, "RTC time"),
    row(EVERY, 0x0070, "rtc-calendar", Bytes(4), Write, Date, "RTC calendar"),
    row(EVERY, 0x0072, "weekly-schedule-mode", Bytes(1), Invert, SWITCH, "Weekly schedule mode"),
    row(EVERY, 0x007C, "device-search", Bytes(16), Read, Identity, "Device search on the local network, ID"),
    row(EVERY, 0x007E, "machine-hours", Bytes(4), Read, LONG_DURATION, "Machine hours"),
    row(EVERY, 0x0083, "alarm-indicator", Bytes(1), Read, ALARM, "Alarm/warning indicator"),
    row(EVERY, 0x0086, "controller-firmware", Bytes(6), Read, FIRMWARE, "Controller base firmware version and date"),
    row(EVERY, 0x0088, "filter-replacement-indicator", Bytes(1), Read, FILTER_INDICATOR, "Filter replacement indicator"),
    row(EVERY, 0x0094, "wifi-operation-mode", Bytes(1), Step, WIFI_MODE, "Wi-Fi operation mode"),
    row(EVERY, 0x0095, "wifi-name", Between(1, 32), Write, Text, "Wi-Fi name in Client mode"),
    row(EVERY, 0x0096, "wifi-password", Between(8, 64), Write, Text, "Wi-Fi password"),
    row(EVERY, 0x0099, "wifi-encryption-type", Bytes(1), Write, ENCRYPTION, "Wi-Fi data encryption type"),
    row(EVERY, 0x009A, "wifi-frequency-channel", Bytes(1), Step, NUMBER, "Wi-Fi frequency channel"),
    row(EVERY, 0x009B, "wifi-dhcp", Bytes(1), Invert, SWITCH, "Wi-Fi module DHCP"),
    row(EVERY, 0x009C, "wifi-ip-address", Bytes(4), Write, ADDRESS, "IP address assigned to Wi-Fi module"),
    row(EVERY, 0x009D, "wifi-subnet-mask", Bytes(4), Write, ADDRESS, "Wi-Fi module subnet mask"),
    row(EVERY, 0x009E, "wifi-main-gateway", Bytes(4), Write, ADDRESS, "Wi-Fi module main gateway"),
    row(EVERY, 0x00A3, "wifi-current-ip-address", Bytes(4), Read, ADDRESS, "Current Wi-Fi module IP address"),
    row(EVERY, 0x00B7, "ventilator-operation-mode", Bytes(1), Step, OPERATION, "Ventilator operation mode"),
    row(NO_A30, 0x00B8, "0-10v-sensor-threshold", Bytes(1), Step, PERCENT, "0-10 V sensor threshold setpoint"),
    row(EVERY, 0x00B9, "unit-type", Bytes(2), Read, Product, "Unit type"),
    row(EVERY, 0x0302, "night-timer-setpoint", Bytes(2), Write, SHORT_TIME, "Night mode timer setpoint"),
    row(EVERY, 0x0303, "party-timer-setpoint", Bytes(2), Write, SHORT_TIME, "Party mode timer setpoint"),
    row(EVERY, 0x0304, "humidity-sensor-status", Bytes(1), Read, SETPOINT_STATUS, "Humidity sensor status"),
    row(NO_A30, 0x0305, "0-10v-sensor-status", Bytes(1), Read, SETPOINT_STATUS, "0-10 V sensor status"),
];
