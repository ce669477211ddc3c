//! What pricing answers on the [edges](receipt_edges) and on [generated orders](receipt_inputs), whether it keeps the
//! bound of CR 7 there, "one copy more at price u raises it by no more than u / 100 cents rounded up, and never lowers it",
//! and whether the order in which values are added shows (CR 8): it must not.

use crate::coverage::Tally;
use crate::limits::LEAVES;
use crate::receipt::{self, Receipt, CENT};
use crate::receipt_edges;
use crate::receipt_inputs::{self, one_copy_more, turned, Input};
use std::fmt;

/// What was seen.
#[derive(Clone, Debug, Default)]
pub struct Report {
    pub edges: usize,
    /// Edges whose answer is not the one written.
    pub wrong: Vec<String>,
    /// Answers to the generated orders, 0 a priced one.
    pub answers: Tally,
    /// Values of priced orders that got one copy more. Of these, how many raised the total as far as the bound lets them,
    /// and how many of those at a price that is no whole number of cents, where the bound is rounded up.
    pub raised: usize,
    pub equal: usize,
    pub rounded_up: usize,
    /// Where the bound is not kept.
    pub beyond: Vec<String>,
    /// Where an order with its last value first is answered otherwise.
    pub turned: Vec<String>,
}

impl Report {
    /// Prices the edges, `count` generated orders, each with its last value first, and each order that is accepted with
    /// one copy more of each value.
    pub fn of(price: impl Fn(&[u8], &[i32]) -> Receipt, seed: u64, count: u64) -> Self {
        let mut report = Report::default();
        for edge in receipt_edges::edges() {
            let answer = price(&edge.prices, &edge.order);
            report.edges += 1;
            if answer != edge.answer {
                report.wrong.push(format!("{}: {answer:?}, expected {:?}", edge.name, edge.answer));
            }
        }
        for (at, input) in receipt_inputs::inputs(seed, count).enumerate() {
            let answer = price(&input.prices, &input.order);
            let name = format!("order {at} of seed {seed}");
            report.answers.add(answer.number as usize);
            let last_first = price(&input.prices, &turned(&input.order));
            if last_first != answer {
                report.turned.push(format!("{name}: {answer:?}, with its last value first {last_first:?}"));
            }
            if answer.number == 0 {
                report.raise(&price, &input, answer, &name);
            }
        }
        report
    }

    /// Whether the report is as it must be.
    pub fn is_right(&self) -> bool {
        self.wrong.is_empty() && self.beyond.is_empty() && self.turned.is_empty()
    }

    /// One copy more of each value that has under 9999.
    fn raise(&mut self, price: impl Fn(&[u8], &[i32]) -> Receipt, input: &Input, before: Receipt, name: &str) {
        let tariff = receipt::tariff(&input.prices).unwrap_or_default();
        for k in 0..input.order.len() / LEAVES {
            let Some(more) = one_copy_more(&input.order, k) else { continue };
            let after = price(&input.prices, &more);
            let u = tariff.get(&input.order[k * LEAVES]).copied().unwrap_or_default();
            let most = before.total + u.div_ceil(CENT);
            self.raised += 1;
            self.equal += usize::from(after.total == most);
            self.rounded_up += usize::from(after.total == most && u % CENT != 0);
            if after.number != 0 || !(before.total..=most).contains(&after.total) {
                self.beyond.push(format!("{name}: {before:?}, with one copy more of value {k} at {u} {after:?}"));
            }
        }
    }
}

impl fmt::Display for Report {
    fn fmt(&self, out: &mut fmt::Formatter<'_>) -> fmt::Result {
        writeln!(out, "edges {}, not as written {}", self.edges, self.wrong.len())?;
        writeln!(out, "orders {}, by answer:{}", self.answers.total(), self.answers)?;
        writeln!(out, "last value first, answered otherwise {}", self.turned.len())?;
        writeln!(
            out,
            "one copy more {}, raised as far as the bound lets it {} ({} where it is rounded up), not within it {}",
            self.raised,
            self.equal,
            self.rounded_up,
            self.beyond.len()
        )?;
        let mut told = [&self.wrong, &self.turned, &self.beyond].into_iter().flat_map(|told| told.iter().take(5));
        told.try_for_each(|told| writeln!(out, "{told}"))
    }
}
