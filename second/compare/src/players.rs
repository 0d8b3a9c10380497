//! Who is held against the second program.

use hallanupp::raw;

use crate::answers::{PanelRow, SessionAnswer, Verdict};
use crate::fast;

pub struct Reader {
    pub name: &'static str,
    pub table_verdict: fn(&[u8]) -> Verdict,
    pub files_verdict: fn(&[u8], &[u8]) -> Verdict,
}

pub const READERS: &[Reader] = &[
    Reader {
        name: "the proved library",
        table_verdict: raw::table_verdict,
        files_verdict: raw::files_verdict,
    },
    Reader {
        name: "the fast program",
        table_verdict: fast::table_verdict,
        files_verdict: fast::files_verdict,
    },
];

/// Table, log, the lent wall record and own record.
pub type AskSession = fn(&[u8], &[u8], &mut [u8], &mut [u8]) -> SessionAnswer;
/// Table, log, booth, n and the lent buffer.
pub type AskSolo = fn(&[u8], &[u8], usize, usize, &mut [u8]) -> Verdict;
/// Table, wall record, booth and t.
pub type AskPanel = fn(&[u8], &[u8], usize, usize) -> PanelRow;

pub struct Player {
    pub name: &'static str,
    pub session: AskSession,
    pub solo_part: AskSolo,
    pub panel: AskPanel,
}

pub const PLAYERS: &[Player] = &[
    Player {
        name: "the proved library",
        session: raw::session,
        solo_part: raw::solo_part,
        panel: raw::panel,
    },
    Player {
        name: "the fast program",
        session: fast::session,
        solo_part: fast::solo_part,
        panel: fast::panel,
    },
];
