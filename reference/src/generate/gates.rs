//! Rows of kind 50 (CR 6) around tasks of a draft, at any depth: roles 1 to 3, and few touches or 99.

use super::draft::Draft;
use crate::random::Random;
use crate::roles::{Gate, Role};
use crate::syntax::Code;

/// The roles that rows of kind 50 are drafted for.
pub const ROLES: [Role; 3] = [1, 2, 3];

/// How rows of kind 50 are put around tasks.
#[derive(Clone, Copy, Debug)]
pub struct Gating {
    /// How many of 100 tasks have one around them.
    percent: usize,
    /// The role of most of them, if they have one.
    role: Option<Role>,
}

impl Draft<'_> {
    /// None in so many of 100 drafts; often most rows are for one role.
    pub fn gating(&mut self, none: usize) -> Option<Gating> {
        if self.random.chance(none) {
            return None;
        }
        let role = if self.random.chance(50) { self.random.pick(&ROLES).copied() } else { None };
        Some(Gating { percent: self.random.weighed(&[(3, 5), (6, 15), (4, 35)]), role })
    }

    /// The task with rows of kind 50 around some of its parts.
    pub fn gated(&mut self, gating: Option<Gating>, code: Code) -> Code {
        let Some(gating) = gating else { return code };
        let outermost = self.random.chance(25);
        let mut gates = Gates { random: self.random, gating };
        let code = gates.code(code);
        if outermost {
            gates.around(code)
        } else {
            code
        }
    }
}

struct Gates<'r> {
    random: &'r mut Random,
    gating: Gating,
}

impl Gates<'_> {
    fn code(&mut self, code: Code) -> Code {
        let code = match code {
            Code::Step(going, a, b) => Code::Step(going, self.part(*a), self.part(*b)),
            Code::Both(a, b) => Code::Both(self.part(*a), self.part(*b)),
            Code::Choice(a, b) => Code::Choice(self.part(*a), self.part(*b)),
            Code::Pick(a, b) => Code::Pick(self.part(*a), self.part(*b)),
            Code::Gate(gate, a) => Code::Gate(gate, self.part(*a)),
            Code::Condition(a, b, c) => Code::Condition(a, self.part(*b), self.part(*c)),
            Code::Bind(a, b) => Code::Bind(a, self.part(*b)),
            Code::Filled(_) | Code::Empty(_) | Code::Shared(_) | Code::Fail(_) | Code::View(_) => code,
        };
        if self.random.chance(self.gating.percent) {
            self.around(code)
        } else {
            code
        }
    }

    fn part(&mut self, code: Code) -> Box<Code> {
        Box::new(self.code(code))
    }

    /// The task in a row of kind 50, now and then in two or more.
    fn around(&mut self, mut code: Code) -> Code {
        loop {
            let drawn = *self.random.pick(&ROLES).expect("roles");
            let role = self.gating.role.filter(|_| self.random.chance(90)).unwrap_or(drawn);
            let touches = self.random.weighed(&[(2, 0), (6, 1), (6, 2), (6, 3), (14, 99)]);
            code = Code::Gate(Gate { role, touches }, Box::new(code));
            if !self.random.chance(15) {
                return code;
            }
        }
    }
}
