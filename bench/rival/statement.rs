//! The statement of one token.

use crate::account::{Account, NO_MODE};
use crate::live::Line;
use crate::table::Table;
use crate::tap::{Sums, Token};
use crate::text::Text;

/// The statement over the entries of a token. Its window is worked out anew.
pub fn statement(table: &Table, token: Token, lines: &[Line]) -> Text {
    let mut out = Text(Vec::new());
    let mut sums = Sums::default();
    let mut account = Account::new(table, token);
    out.word("statement ").token(token).word("\n");
    for Line { validator, reply } in lines {
        let mode = table.mode_of(*validator);
        account.step(table, mode.unwrap_or(NO_MODE), reply.moment());
        sums.counts[reply.answer() as usize] += 1;
        sums.cents += reply.cents() as u64;
        out.moment(reply.moment())
            .word(" ")
            .word(mode.map_or("-", |mode| table.mode_name(mode)));
        out.word(" ")
            .number(*validator as u64)
            .word(" ")
            .word(reply.answer().word());
        out.word(" ").number(reply.cents() as u64).word("\n");
    }
    out.word("totals ").sums(&sums).word("window ");
    if !account.has_window() {
        out.word("none\n");
        return out;
    }
    out.moment(account.window_start)
        .word(" ")
        .moment(account.window_end);
    out.word(" paid ").number(account.window_paid as u64);
    out.word(" cents ")
        .number(account.window_cents as u64)
        .word("\n");
    out
}
