//! A board of the replay, and packets by hand, for the tests beside this folder.

use reference::replay::Session;

pub const ZERO_ID: &str = "00000000000000000000000000000000";
pub const CODE_WORD: &str = "44454641554C545F4445564943454944";

/// A packet of hex parts; the sum is worked out here.
pub fn packet(id: &str, password: &str, function: u8, data: &str) -> String {
    let data = data.replace(' ', "");
    let size = password.len() / 2;
    let head = format!("0210{id}{size:02X}{password}{function:02X}{data}");
    let sum: u32 = (0..head.len())
        .step_by(2)
        .map(|place| u32::from_str_radix(&head[place..place + 2], 16).unwrap())
        .sum();
    format!("FDFD{head}{:02X}{:02X}", sum % 256, sum / 256)
}

/// A board with zero ID.
pub struct Board {
    session: Session,
    password: &'static str,
}

impl Board {
    /// A Micra.
    pub fn new(password: &'static str, mode: u8) -> Board {
        Board::of_type(2, password, mode)
    }

    pub fn of_type(unit_type: u8, password: &'static str, mode: u8) -> Board {
        let mut board = Board {
            session: Session::new(),
            password,
        };
        let shown = if password.is_empty() { "-" } else { password };
        let answer = board.call(&format!("setup {ZERO_ID} {shown} {mode} {unit_type}"));
        assert_eq!(answer, "accepted");
        board
    }

    pub fn call(&mut self, line: &str) -> String {
        self.session.line(line.as_bytes()).unwrap()
    }

    pub fn ask(&mut self, function: u8, data: &str) -> String {
        let sent = packet(ZERO_ID, self.password, function, data);
        self.call(&format!("packet 256 {sent}"))
    }

    pub fn expect(&mut self, function: u8, data: &str, response: &str) {
        let response = packet(ZERO_ID, self.password, 6, response);
        assert_eq!(self.ask(function, data), format!("response {response}"));
    }
}
