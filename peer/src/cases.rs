//! One call with all that is lent to it, so that implementations can be compared.

use crate::lent::{Core, OracleNumbers};
use crate::value::{Site, Viewers};

/// The calls by name, in the order of the vector files: the rack's, those on a mesh, a viewer's, those on pages.
#[derive(Clone, Copy, PartialEq, Eq, PartialOrd, Ord, Debug)]
pub enum Call {
    Empty,
    ReadFile,
    SaveFile,
    Send,
    Receive,
    Release,
    Redirect,
    CheckMesh,
    NextMove,
    ViewerEmpty,
    ViewerReadFile,
    ViewerSaveFile,
    ViewerSend,
    ViewerReceive,
    ViewerRelease,
    ViewerRedirect,
    WritePages,
    ReadPages,
    ViewerWritePages,
    ViewerReadPages,
}

/// Those that are not on pages.
pub const CALLS: [Call; 16] = [
    Call::Empty,
    Call::ReadFile,
    Call::SaveFile,
    Call::Send,
    Call::Receive,
    Call::Release,
    Call::Redirect,
    Call::CheckMesh,
    Call::NextMove,
    Call::ViewerEmpty,
    Call::ViewerReadFile,
    Call::ViewerSaveFile,
    Call::ViewerSend,
    Call::ViewerReceive,
    Call::ViewerRelease,
    Call::ViewerRedirect,
];

pub const CALLS_ON_PAGES: [Call; 4] =
    [Call::WritePages, Call::ReadPages, Call::ViewerWritePages, Call::ViewerReadPages];

/// All calls, in the order of the vector files.
pub fn all_calls() -> Vec<Call> {
    [CALLS.as_slice(), &CALLS_ON_PAGES].concat()
}

/// The calls on one block: the rack's, and a viewer's that does the same.
const PAIRS: [(Call, Call); 9] = [
    (Call::Empty, Call::ViewerEmpty),
    (Call::ReadFile, Call::ViewerReadFile),
    (Call::SaveFile, Call::ViewerSaveFile),
    (Call::Send, Call::ViewerSend),
    (Call::Receive, Call::ViewerReceive),
    (Call::Release, Call::ViewerRelease),
    (Call::Redirect, Call::ViewerRedirect),
    (Call::WritePages, Call::ViewerWritePages),
    (Call::ReadPages, Call::ViewerReadPages),
];

impl Call {
    pub fn name(self) -> &'static str {
        match self {
            Call::Empty => "empty",
            Call::ReadFile => "read_file",
            Call::SaveFile => "save_file",
            Call::Send => "send",
            Call::Receive => "receive",
            Call::Release => "release",
            Call::Redirect => "redirect",
            Call::CheckMesh => "check_mesh",
            Call::NextMove => "next_move",
            Call::ViewerEmpty => "viewer_empty",
            Call::ViewerReadFile => "viewer_read_file",
            Call::ViewerSaveFile => "viewer_save_file",
            Call::ViewerSend => "viewer_send",
            Call::ViewerReceive => "viewer_receive",
            Call::ViewerRelease => "viewer_release",
            Call::ViewerRedirect => "viewer_redirect",
            Call::WritePages => "write_pages",
            Call::ReadPages => "read_pages",
            Call::ViewerWritePages => "viewer_write_pages",
            Call::ViewerReadPages => "viewer_read_pages",
        }
    }

    /// Whose call it is; those on a mesh are the rack's.
    pub fn site(self) -> Site {
        if self.on_the_rack() == self {
            Site::Rack
        } else {
            Site::Viewer
        }
    }

    /// The rack's call that does the same.
    pub fn on_the_rack(self) -> Call {
        PAIRS.iter().find(|(_, viewer)| *viewer == self).map_or(self, |(rack, _)| *rack)
    }

    /// The same call of a site; those on a mesh stay.
    pub fn at(self, site: Site) -> Call {
        let on_the_rack = self.on_the_rack();
        match site {
            Site::Rack => on_the_rack,
            Site::Viewer => PAIRS.iter().find(|(rack, _)| *rack == on_the_rack).map_or(self, |(_, viewer)| *viewer),
        }
    }

    /// Whether it is about pages, whose bytes are packed in the vector files.
    pub fn is_about_pages(self) -> bool {
        self >= Call::WritePages
    }

    /// Every answer the call can give, 0 first and the others ascending.
    pub fn answers(self) -> &'static [u32] {
        match self {
            Call::Empty | Call::ViewerEmpty => &[0, 1, 9],
            Call::ReadFile | Call::ViewerReadFile => &[0, 1, 3, 4, 5, 6, 7, 8],
            Call::SaveFile | Call::ViewerSaveFile => &[0, 1, 2, 15],
            Call::Send | Call::ViewerSend => &[0, 1, 2, 9, 10, 11, 12, 13, 14, 15],
            Call::Receive => &[0, 1, 2, 16, 17, 18, 19, 20, 21],
            Call::ViewerReceive => &[0, 1, 2, 16, 17, 18, 19, 20, 21, 29],
            Call::Release | Call::ViewerRelease => &[0, 1, 2, 9, 10, 11, 12, 13, 14],
            Call::Redirect | Call::ViewerRedirect => &[0, 1, 2, 16, 17, 22],
            Call::CheckMesh => &[0, 1, 2, 23, 24, 25, 26, 27],
            Call::NextMove => &[0, 1, 2, 23, 24, 25, 26, 27, 28],
            Call::WritePages | Call::ViewerWritePages => &[0, 1, 2, 30],
            Call::ReadPages | Call::ViewerReadPages => &[0, 1, 3, 5, 6, 7],
        }
    }
}

/// What stands in a lent `written` before the call; a refusal leaves it there.
pub const UNWRITTEN: u64 = 0x5a5a_5a5a_5a5a_5a5a;

/// The inputs of one call; running it changes what was lent for writing.
#[derive(Clone, PartialEq, Eq, Debug)]
pub enum Case {
    Empty { site: Site, number: u64, block: Vec<u64> },
    ReadFile { site: Site, file: Vec<u8>, block: Vec<u64> },
    SaveFile { site: Site, block: Vec<u64>, out: Vec<u8>, written: u64 },
    Send { site: Site, block: Vec<u64>, to: u64, serial: u64, outbox: Vec<u8>, written: u64 },
    Receive { site: Site, block: Vec<u64>, message: Vec<u8> },
    Release { site: Site, block: Vec<u64>, to: u64, serial: u64 },
    Redirect { site: Site, block: Vec<u64>, message: Vec<u8> },
    CheckMesh { mesh: Vec<u64>, viewers: Viewers, scratch: Vec<u64> },
    NextMove { mesh: Vec<u64>, viewers: Viewers, oracle: OracleNumbers, scratch: Vec<u64>, answer: Vec<u64> },
    WritePages { site: Site, block: Vec<u64>, out: Vec<u8>, written: u64 },
    ReadPages { site: Site, pages: Vec<u8>, block: Vec<u64> },
}

impl Case {
    pub fn call(&self) -> Call {
        match self {
            Case::Empty { site, .. } => Call::Empty.at(*site),
            Case::ReadFile { site, .. } => Call::ReadFile.at(*site),
            Case::SaveFile { site, .. } => Call::SaveFile.at(*site),
            Case::Send { site, .. } => Call::Send.at(*site),
            Case::Receive { site, .. } => Call::Receive.at(*site),
            Case::Release { site, .. } => Call::Release.at(*site),
            Case::Redirect { site, .. } => Call::Redirect.at(*site),
            Case::CheckMesh { .. } => Call::CheckMesh,
            Case::NextMove { .. } => Call::NextMove,
            Case::WritePages { site, .. } => Call::WritePages.at(*site),
            Case::ReadPages { site, .. } => Call::ReadPages.at(*site),
        }
    }

    /// Makes the call on what is lent; gives its answer.
    pub fn run(&mut self, core: &dyn Core) -> u32 {
        match self {
            Case::Empty { site, number, block } => core.empty(*site, *number, block),
            Case::ReadFile { site, file, block } => core.read_file(*site, file, block),
            Case::SaveFile { site, block, out, written } => core.save_file(*site, block, out, written),
            Case::Send { site, block, to, serial, outbox, written } => {
                core.send(*site, block, *to, *serial, outbox, written)
            }
            Case::Receive { site, block, message } => core.receive(*site, block, message),
            Case::Release { site, block, to, serial } => core.release(*site, block, *to, *serial),
            Case::Redirect { site, block, message } => core.redirect(*site, block, message),
            Case::CheckMesh { mesh, viewers, scratch } => core.check_mesh(mesh, *viewers, scratch),
            Case::NextMove { mesh, viewers, oracle, scratch, answer } => {
                core.next_move(mesh, *viewers, oracle, scratch, answer)
            }
            Case::WritePages { site, block, out, written } => core.write_pages(*site, block, out, written),
            Case::ReadPages { site, pages, block } => core.read_pages(*site, pages, block),
        }
    }
}

/// Runs a case on two cores; the answer, or what differs.
pub fn compare(case: &Case, one: &dyn Core, two: &dyn Core) -> Result<u32, String> {
    let (mut by_one, mut by_two) = (case.clone(), case.clone());
    let (first, second) = (by_one.run(one), by_two.run(two));
    if first != second {
        return Err(format!("{}: answers {first} and {second}", case.call().name()));
    }
    if by_one != by_two {
        return Err(format!("{}: answer {first}, but what was lent differs", case.call().name()));
    }
    if first != 0 && by_one != *case {
        return Err(format!("{}: refused by {first}, but what was lent has changed", case.call().name()));
    }
    Ok(first)
}
