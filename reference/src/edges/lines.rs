//! Lines that are no call, and those that are passed over.

use super::{Edges, ID, PASSWORD};

/// Lines that have none of the forms.
const BAD: [&str; 95] = [
    " ",
    "  ",
    "-",
    "0",
    "\t",
    " # comment",
    " record",
    "record ",
    "record  ",
    "record 0",
    "record -",
    "record\t",
    "Record",
    "RECORD",
    "recor",
    "records",
    "\u{feff}record",
    "hello",
    "setup",
    "setup ",
    "setup -",
    "setup - -",
    "setup - - ",
    "setup  - - 1",
    "setup -  - 1",
    "setup - -  1",
    "setup - - 1 ",
    "setup - - 01",
    "setup - - 001",
    "setup - - 00",
    "setup - - +1",
    "setup - - -1",
    "setup - - -",
    "setup - - 1.0",
    "setup - - 0x1",
    "setup - - 1A",
    "setup - - 256",
    "setup - - 257",
    "setup - - 65537",
    "setup - - 4294967297",
    "setup - - 18446744073709551617",
    "setup 0 - 1",
    "setup 000 - 1",
    "setup 0a - 1",
    "setup 0A - 1\r",
    "setup 0G - 1",
    "setup -- - 1",
    "setup 0-0A - 1",
    "setup 0x00 - 1",
    "setup é - 1",
    "packet",
    "packet 256",
    "packet 256 ",
    "packet -",
    "packet 1025 -",
    "packet 4294967552 -",
    "packet 0256 -",
    "packet 00 -",
    "packet -0 -",
    "packet 256 fd",
    "packet 256 F",
    "packet 256 FD FD",
    "packet 256  FD",
    "packet\t256 FD",
    "packet FF FD",
    "measure 001E",
    "measure 1E CEFF",
    "measure 0001E CEFF",
    "measure 001e CEFF",
    "measure 0x1E CEFF",
    "measure 001E CEF",
    "measure 001E CE FF",
    "poke",
    "poke 0001",
    "poke 0001 ",
    "poke 001 00",
    "poke Id 00",
    "poke mode -",
    "poke mode 256",
    "poke type",
    "poke type -",
    "poke type 02",
    "poke type 256",
    "poke Type 2",
    "poke type 2 2",
    "poke types 2",
    "setup - - 1 256",
    "setup - - 1 02",
    "setup - - 1 -",
    "setup - - 1 +2",
    "setup - - 1 65538",
    "setup - - 256 2",
    "setup - - 1  2",
    "setup - - 1 2 ",
    "setup - - 1 2 2",
];

/// Bad forms of the tool's calls.
const BAD_TOOL: [&str; 26] = [
    "write",
    "write 256",
    "write 256 -",
    "write 256 - - ",
    "write 1025 - -",
    "write 0256 - -",
    "write - - -",
    "write 256 - - 1",
    "write 256 - - 1:0001",
    "write 256 - - 1:0001:",
    "write 256 - - 1:0001:0",
    "write 256 - - 1:0001:0a",
    "write 256 - - 1:0001:-:",
    "write 256 - - :0001:-",
    "write 256 - - 1::-",
    "write 256 - - 01:0001:-",
    "write 256 - - 256:0001:-",
    "write 256 - - -1:0001:-",
    "write 256 - - 1:001:-",
    "write 256 - - 1:00001:-",
    "write 256 - - 1:0001:-  1:0002:-",
    "write 0 - - 1:0001:- x",
    "read",
    "read - -",
    "read - - -  ",
    "list",
];

pub fn add(edges: &mut Edges) {
    edges.set_up(&ID, PASSWORD, 2);
    edges.ask(2, "01 01", "silence");
    edges.rule("Lines that are none of the forms write `bad line` and change nothing");
    for line in BAD.into_iter().chain(BAD_TOOL) {
        edges.line(line, "bad line");
    }
    edges.line("list 0", "bad line");
    edges.line("list - -", "bad line");
    edges.line("list  -", "bad line");
    edges.record(2, &[("0001", "01")]);
    edges.rule("A bad field makes a bad line also where another field would be refused");
    edges.line("write 0 00 2A 6:0001:", "bad line");
    edges.line("setup 00 2A 256", "bad line");
    edges.line("setup 00 2A 3 256", "bad line");
    edges.line("packet 0 fd", "bad line");
    edges.rule("Lines that are passed over: comments and empty lines");
    for line in ["", "#", "##", "# setup - - 1", "#record", "# \u{e9}\t", ""] {
        edges.passed_over(line);
    }
    edges.record(2, &[("0001", "01")]);
}
