//! Reading a table, with refusals 1 to 14 in the order of docs/FORMAT.md.

use crate::limits::{code, refusal, MAX_FORK, MAX_LOCALS, MAX_OPEN};
use crate::limits::{MAX_PARAMETERS, MAX_ROUTINES, MAX_SECTION};

/// A table that has passed every check.
#[derive(Clone, Debug, PartialEq, Eq)]
pub struct Table {
    pub routines: Vec<Routine>,
}

/// One routine: its parameter count, and its items up to and with its last END.
#[derive(Clone, Debug, PartialEq, Eq)]
pub struct Routine {
    pub parameters: u8,
    pub items: Vec<Item>,
}

/// One code with its operands.
#[derive(Clone, Debug, PartialEq, Eq)]
pub enum Item {
    End,
    New,
    Lock { name: u8 },
    Fork,
    Choice,
    Other,
    Call { routine: usize, names: Vec<u8> },
    Mirror { name: u8 },
}

/// An open block.
#[derive(Clone, Copy, Debug, PartialEq, Eq)]
pub enum Block {
    /// The routine's body, which does not count towards the depth.
    Body,
    /// The lock of this name is held inside.
    Lock(u8),
    /// Run by the fork with this number, from 1 in written order.
    Fork(u8),
    /// The first alternative of a choice.
    First,
    /// The second alternative of a choice.
    Second,
}

impl Table {
    /// Items in all bodies, closing END and OTHER items with them.
    pub fn items(&self) -> usize {
        self.routines
            .iter()
            .map(|routine| routine.items.len())
            .sum()
    }

    /// MIRROR items in all bodies.
    pub fn mirrors(&self) -> usize {
        let items = self.routines.iter().flat_map(|routine| &routine.items);
        items
            .filter(|item| matches!(item, Item::Mirror { .. }))
            .count()
    }
}

impl Item {
    /// The names that stand in the item, in order.
    pub fn names(&self) -> &[u8] {
        match self {
            Item::Lock { name } | Item::Mirror { name } => std::slice::from_ref(name),
            Item::Call { names, .. } => names,
            _ => &[],
        }
    }

    /// Whether the item gives the next local name.
    pub fn makes_local(&self) -> bool {
        matches!(self, Item::New | Item::Mirror { .. })
    }

    /// The item with each of its names replaced.
    pub fn with_names(&self, mut rename: impl FnMut(u8) -> u8) -> Item {
        match self {
            Item::Lock { name } => Item::Lock {
                name: rename(*name),
            },
            Item::Mirror { name } => Item::Mirror {
                name: rename(*name),
            },
            Item::Call { routine, names } => Item::Call {
                routine: *routine,
                names: names.iter().map(|&name| rename(name)).collect(),
            },
            other => other.clone(),
        }
    }
}

impl Routine {
    /// The routine of each CALL, in written order.
    pub fn callees(&self) -> impl Iterator<Item = usize> + '_ {
        self.items.iter().filter_map(|item| match item {
            Item::Call { routine, .. } => Some(*routine),
            _ => None,
        })
    }

    /// For each name from 0 on, the name that pairs are recorded under: that of a
    /// mirror's lock, all the way back to a NEW or a parameter, else the name itself.
    pub fn roots(&self) -> Vec<u8> {
        let mut roots: Vec<u8> = (0..=self.parameters).collect();
        for item in &self.items {
            match item {
                Item::New => roots.push(roots.len() as u8),
                // A mirror stands behind what it mirrors, so that is known.
                Item::Mirror { name } => roots.push(roots[*name as usize]),
                _ => {}
            }
        }
        roots
    }

    /// For each item, the names in scope where it stands.
    pub fn scopes(&self) -> Vec<Vec<u8>> {
        let mut scopes = Vec::new();
        // Each local in scope, with the number of blocks that are open where it was made.
        let mut locals: Vec<(usize, u8)> = Vec::new();
        let mut last = self.parameters;
        self.walk(|item, open| {
            locals.retain(|&(depth, _)| depth <= open.len());
            let names = locals.iter().map(|&(_, name)| name);
            scopes.push((1..=self.parameters).chain(names).collect());
            if item.makes_local() {
                last += 1;
                locals.push((open.len(), last));
            }
            // The second alternative has none of the locals of the first.
            if *item == Item::Other {
                locals.retain(|&(depth, _)| depth < open.len());
            }
        });
        scopes
    }

    /// The routine with each name in a LOCK or a CALL replaced by the one at its place in
    /// `names`. Its locals keep their numbers.
    pub fn renamed(&self, names: &[u8]) -> Routine {
        let rename = |name: &u8| names[*name as usize];
        let items = self.items.iter().map(|item| match item {
            Item::Lock { name } => Item::Lock { name: rename(name) },
            Item::Call { routine, names } => Item::Call {
                routine: *routine,
                names: names.iter().map(rename).collect(),
            },
            other => other.clone(),
        });
        Routine {
            parameters: self.parameters,
            items: items.collect(),
        }
    }

    /// Visits each item with the blocks that are open where it stands, the
    /// outermost first. A LOCK stands outside the block that it opens.
    pub fn walk(&self, mut visit: impl FnMut(&Item, &[Block])) {
        let mut open = vec![Block::Body];
        let mut forks = 0;
        for item in &self.items {
            visit(item, &open);
            match item {
                Item::New | Item::Mirror { .. } | Item::Call { .. } => {}
                Item::Lock { name } => open.push(Block::Lock(*name)),
                Item::Fork => {
                    forks += 1;
                    open.push(Block::Fork(forks));
                }
                Item::Choice => open.push(Block::First),
                Item::Other => {
                    open.pop();
                    open.push(Block::Second);
                }
                Item::End => {
                    open.pop();
                }
            }
        }
    }
}

/// Reads a whole table, or gives the number of the first refusal.
pub fn read(table: &[u8]) -> Result<Table, u32> {
    // 1: empty.
    if table.is_empty() {
        return Err(refusal::EMPTY);
    }
    // 2: routine count.
    let n = table[0] as usize;
    if n == 0 || n > MAX_ROUTINES {
        return Err(refusal::ROUTINE_COUNT);
    }
    // 3: n parameter counts and two count bytes must follow.
    let section_start = 1 + n + 2;
    if table.len() < section_start {
        return Err(refusal::HEADER_CUT);
    }
    // 4: parameter counts.
    let parameters = &table[1..1 + n];
    if parameters.iter().any(|&k| k > MAX_PARAMETERS) || parameters[0] != 0 {
        return Err(refusal::PARAMETER_COUNT);
    }
    // 5: body count, low byte first.
    let count = table[1 + n] as usize + 256 * table[2 + n] as usize;
    if count > MAX_SECTION {
        return Err(refusal::SECTION_COUNT);
    }
    // 6: exactly that many bytes follow.
    let section = &table[section_start..];
    if section.len() != count {
        return Err(refusal::SECTION_LENGTH);
    }
    // 7 to 13, item by item.
    let mut reader = Reader { section, at: 0 };
    let mut routines = Vec::new();
    for &k in parameters {
        routines.push(reader.routine(k, parameters)?);
    }
    // 14: nothing after the last body.
    if reader.at < section.len() {
        return Err(refusal::BYTES_LEFT);
    }
    Ok(Table { routines })
}

/// The body section and how far it has been read.
struct Reader<'a> {
    section: &'a [u8],
    at: usize,
}

/// An open block with the locals made directly in it.
struct Open {
    block: Block,
    locals: Vec<u8>,
}

impl Open {
    fn new(block: Block) -> Open {
        Open {
            block,
            locals: Vec::new(),
        }
    }
}

impl Reader<'_> {
    /// The next byte, if there is one.
    fn byte(&mut self) -> Option<u8> {
        let byte = self.section.get(self.at).copied();
        if byte.is_some() {
            self.at += 1;
        }
        byte
    }

    /// A name byte that must be there and in scope.
    fn name(&mut self, parameters: u8, open: &[Open]) -> Result<u8, u32> {
        match self.byte() {
            Some(name) if in_scope(name, parameters, open) => Ok(name),
            _ => Err(refusal::BAD_NAME),
        }
    }

    /// Reads one body, up to and with the END that closes it.
    fn routine(&mut self, parameters: u8, counts: &[u8]) -> Result<Routine, u32> {
        let mut items = Vec::new();
        let mut open = vec![Open::new(Block::Body)];
        let mut locals = 0;
        let mut forks = 0;
        while let Some(innermost) = open.last_mut() {
            // 7: a code is due.
            let code = self.byte().ok_or(refusal::NO_CODE)?;
            // 8: unknown code.
            if code > code::LAST {
                return Err(refusal::BAD_CODE);
            }
            // 9: a first alternative is ended by OTHER, and by nothing else.
            let in_first = innermost.block == Block::First;
            if (code == code::OTHER && !in_first) || (code == code::END && in_first) {
                return Err(refusal::MISPLACED);
            }
            // 10: depth; OTHER closes one block before it opens one.
            let opens = matches!(code, code::LOCK | code::FORK | code::CHOICE);
            let depth = open.len() - 1;
            if opens && depth == MAX_OPEN {
                return Err(refusal::TOO_DEEP);
            }
            // 11: locals and FORK of this routine.
            let makes_local = matches!(code, code::NEW | code::MIRROR);
            if (makes_local && locals == MAX_LOCALS) || (code == code::FORK && forks == MAX_FORK) {
                return Err(refusal::TOO_MANY);
            }
            items.push(match code {
                code::END => {
                    // The locals of the block go out of scope with it.
                    open.pop();
                    Item::End
                }
                code::NEW => Item::New,
                code::MIRROR => {
                    // 13: the name, which cannot be that of the mirror itself.
                    let name = self.name(parameters, &open)?;
                    Item::Mirror { name }
                }
                code::LOCK => {
                    // 13: the name.
                    let name = self.name(parameters, &open)?;
                    open.push(Open::new(Block::Lock(name)));
                    Item::Lock { name }
                }
                code::FORK => {
                    forks += 1;
                    open.push(Open::new(Block::Fork(forks)));
                    Item::Fork
                }
                code::CHOICE => {
                    open.push(Open::new(Block::First));
                    Item::Choice
                }
                code::OTHER => {
                    open.pop();
                    open.push(Open::new(Block::Second));
                    Item::Other
                }
                _ => {
                    // 12: the routine byte.
                    let routine = match self.byte() {
                        Some(r) if (r as usize) < counts.len() => r as usize,
                        _ => return Err(refusal::BAD_ROUTINE),
                    };
                    // 13: one name for each of its parameters, in order.
                    let mut names = Vec::new();
                    for _ in 0..counts[routine] {
                        names.push(self.name(parameters, &open)?);
                    }
                    Item::Call { routine, names }
                }
            });
            if makes_local {
                // Locals are numbered over the whole routine.
                locals += 1;
                if let Some(innermost) = open.last_mut() {
                    innermost.locals.push(parameters + locals);
                }
            }
        }
        Ok(Routine { parameters, items })
    }
}

/// Parameters are always in scope, locals while their block is open, name 0 never.
fn in_scope(name: u8, parameters: u8, open: &[Open]) -> bool {
    (1..=parameters).contains(&name) || open.iter().any(|block| block.locals.contains(&name))
}
