//! The numbered reasons why a call is turned down.

/// Each refusal; its discriminant is the number of the rules.
#[derive(Clone, Copy, Debug, PartialEq, Eq)]
pub enum Refusal {
    /// The response buffer, or the tool's output buffer, is under 256 bytes.
    SmallBuffer = 1,
    /// The packet has under 24 or over 256 bytes.
    Length = 2,
    /// The packet does not start with FD FD.
    Start = 3,
    /// The checksum differs.
    Checksum = 4,
    /// TYPE or ID size differs.
    TypeOrIdSize = 5,
    /// Password size over 8, or no room for FUNC and checksum after it.
    PasswordSize = 6,
    /// The ID is not one that is taken.
    Id = 7,
    /// The password differs.
    Password = 8,
    /// FUNC is not one that is taken.
    Function = 9,
    /// The data block is malformed.
    Malformed = 10,
    /// A search with a function other than 1.
    SearchFunction = 11,
    /// The response would exceed 256 bytes.
    LongResponse = 12,
    /// Set-up: the ID is not 16 bytes, or is the code word.
    SetupId = 20,
    /// Set-up and tool: the password is over 8 or has an illegal character.
    IllegalPassword = 21,
    /// Set-up: the mode is neither client nor access point.
    SetupMode = 22,
    /// Set-up: the unit type is none of 2 to 5.
    SetupType = 23,
    /// Measurement: not a row that takes measurements.
    NotMeasured = 30,
    /// Measurement: wrong length.
    MeasurementLength = 31,
    /// Tool: the ID is not 16 bytes.
    ToolId = 40,
    /// Tool: a command that cannot be written.
    Command = 42,
    /// Tool: the packet would exceed 256 bytes.
    LongPacket = 43,
    /// Capture: the mark is wrong or cut short.
    CaptureMark = 50,
    /// Capture: the version is wrong or cut short.
    CaptureVersion = 51,
    /// Capture: the board count is wrong or cut short, or the IDs are.
    CaptureBoards = 52,
    /// Capture: a record is cut short or has a field outside its range.
    CaptureRecord = 53,
    /// Capture and table: the writer's buffer is too short.
    CaptureBuffer = 54,
    /// Table: the header differs or is missing.
    TableHeader = 60,
    /// Table: the quoting or the line end is wrong.
    TableQuoting = 61,
    /// Table: a line has another number of fields.
    TableFields = 62,
    /// Table: a field is outside its form.
    TableForm = 63,
    /// The board record is not a legal one.
    IllegalRecord = 70,
}

impl Refusal {
    pub fn number(self) -> u8 {
        self as u8
    }
}
