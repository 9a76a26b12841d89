//! What entities reach through their parents: "ancestors are all entities reached through them, circles allowed".

use crate::sheet::{self, EntityRow, Mode, Refusal, ShapeRow, Sheet, ValueRow};

/// The parents on the entity lines of a sheet.
pub struct Parents<'s> {
    values: &'s [ValueRow],
    /// By value number: the last column of the entity's line, None where it is unlisted.
    columns: Vec<Option<Option<u32>>>,
}

/// What one entity reaches, and whether the parents of all of that, and its own, are known.
pub struct Reached {
    pub entities: Vec<u32>,
    pub known: bool,
}

impl<'s> Parents<'s> {
    pub fn of(values: &'s [ValueRow], entities: &[EntityRow]) -> Parents<'s> {
        let mut columns = vec![None; values.len()];
        for row in entities {
            columns[row.entity as usize] = Some(row.parents);
        }
        Parents { values, columns }
    }

    /// An entity in a circle reaches itself. Nothing is reached through an entity that is unlisted or whose parents are `?`.
    pub fn reached(&self, entity: u32) -> Reached {
        let mut reached = Reached { entities: Vec::new(), known: true };
        // Entities reached and sets of parents gone through, both by value number.
        let mut seen = vec![false; self.values.len()];
        let mut waiting = vec![entity];
        while let Some(one) = waiting.pop() {
            let Some(Some(set)) = self.columns[one as usize] else {
                reached.known = false;
                continue;
            };
            if std::mem::replace(&mut seen[set as usize], true) {
                continue;
            }
            for parent in members(&self.values[set as usize]) {
                if !std::mem::replace(&mut seen[*parent as usize], true) {
                    reached.entities.push(*parent);
                    waiting.push(*parent);
                }
            }
        }
        reached
    }

    /// The ancestors of an entity on a partial sheet: "unknown .. if it is unlisted, if its own parents are `?`, or if it reaches an
    /// entity of either sort".
    pub fn known(&self, entity: u32) -> Option<Vec<u32>> {
        let reached = self.reached(entity);
        reached.known.then_some(reached.entities)
    }

    /// "Each ancestor's kind must be among those above": the place of the first line of an entity that reaches another kind.
    pub fn first_unfit(&self, entities: &[EntityRow], shapes: &[ShapeRow]) -> Option<usize> {
        entities.iter().position(|row| {
            let above = self.kind(row.entity).map_or(&[][..], |kind| &shapes[kind as usize].above);
            let fits = |one: &u32| self.kind(*one).is_some_and(|kind| above.contains(&kind));
            !self.reached(row.entity).entities.iter().all(fits)
        })
    }

    fn kind(&self, value: u32) -> Option<u32> {
        match self.values[value as usize] {
            ValueRow::Entity(kind, _) => Some(kind),
            _ => None,
        }
    }
}

/// The members of a set; nothing for other values.
fn members(value: &ValueRow) -> &[u32] {
    match value {
        ValueRow::Set(items) => items,
        _ => &[],
    }
}

/// How many sheets, of those seen, show what.
#[derive(Debug, Default)]
pub struct Shown {
    /// An entity that reaches itself.
    pub circles: usize,
    /// Known ancestors that are not all parents.
    pub rows: usize,
    /// Known parents and unknown ancestors.
    pub unknown: usize,
    /// A refusal for what an entity reaches.
    pub refused: usize,
}

impl Shown {
    pub fn see(&mut self, mode: Mode, bytes: &[u8]) {
        match sheet::read(mode, bytes) {
            Ok(sheet) => self.accepted(mode, &sheet),
            Err(refusal) => self.refused += usize::from(is_reached(mode, bytes, refusal)),
        }
    }

    fn accepted(&mut self, mode: Mode, sheet: &Sheet) {
        let parents = sheet.parents();
        let (mut circle, mut row, mut unknown) = (false, false, false);
        for line in &sheet.entities {
            let reached = parents.reached(line.entity);
            let direct = line.parents.map_or(0, |set| members(&sheet.values[set as usize]).len());
            let known = reached.known || mode == Mode::Complete;
            circle |= reached.entities.contains(&line.entity);
            row |= known && reached.entities.len() > direct;
            unknown |= !known && line.parents.is_some();
        }
        self.circles += usize::from(circle);
        self.rows += usize::from(row);
        self.unknown += usize::from(unknown);
    }

    pub fn line(&self) -> String {
        format!(
            "accepted: {} with a circle of parents, {} with known ancestors that are no parents, {} with a known parent and unknown ancestors; refused for what an entity reaches: {}",
            self.circles, self.rows, self.unknown, self.refused
        )
    }
}

/// Whether a sheet is refused for what an entity reaches, not for a line by itself: then another entity line comes first and gets 3.
fn is_reached(mode: Mode, bytes: &[u8], refusal: Refusal) -> bool {
    let lines = bytes.split_inclusive(|byte| *byte == b'\n').take(refusal.line as usize);
    let cut = [&lines.collect::<Vec<_>>().concat()[..], b"entity="].concat();
    let wanted = Refusal { number: 3, line: refusal.line + 1, length: 0 };
    refusal.number == 7 && sheet::read(mode, &cut).is_err_and(|other| other == wanted)
}

#[cfg(test)]
mod tests {
    use super::*;

    /// Values 0 to 4 are entities of kinds 0, 0, 1, 0, 0; the sets of parents of the listed ones follow.
    fn lines(parents: &[(u32, Option<&[u32]>)]) -> (Vec<ValueRow>, Vec<EntityRow>) {
        let mut values: Vec<ValueRow> = [0, 0, 1, 0, 0].into_iter().zip(0..).map(|(k, t)| ValueRow::Entity(k, t)).collect();
        let mut line = |(entity, set): &(u32, Option<&[u32]>)| {
            let parents = set.map(|set| {
                values.push(ValueRow::Set(set.to_vec()));
                values.len() as u32 - 1
            });
            EntityRow { entity: *entity, attributes: None, tags: None, parents }
        };
        let entities = parents.iter().map(&mut line).collect();
        (values, entities)
    }

    /// What an entity reaches, ascending, and whether its ancestors are known.
    fn reached(parents: &[(u32, Option<&[u32]>)], entity: u32) -> (Vec<u32>, bool) {
        let (values, entities) = lines(parents);
        let parents = Parents::of(&values, &entities);
        let mut reached = parents.reached(entity);
        assert_eq!(parents.known(entity).is_some(), reached.known);
        reached.entities.sort();
        (reached.entities, reached.known)
    }

    #[test]
    fn rows_and_circles() {
        assert_eq!(reached(&[(0, Some(&[1])), (1, Some(&[2, 3])), (2, Some(&[])), (3, Some(&[]))], 0), (vec![1, 2, 3], true));
        assert_eq!(reached(&[(0, Some(&[]))], 0), (vec![], true));
        assert_eq!(reached(&[(0, Some(&[0]))], 0), (vec![0], true));
        assert_eq!(reached(&[(0, Some(&[1])), (1, Some(&[0]))], 1), (vec![0, 1], true));
        // A circle beside, which the entity is not in.
        assert_eq!(reached(&[(0, Some(&[1])), (1, Some(&[2])), (2, Some(&[1]))], 0), (vec![1, 2], true));
    }

    #[test]
    fn unknown_ancestors() {
        assert_eq!(reached(&[], 0), (vec![], false));
        assert_eq!(reached(&[(0, None)], 0), (vec![], false));
        assert_eq!(reached(&[(0, Some(&[1]))], 0), (vec![1], false));
        assert_eq!(reached(&[(0, Some(&[1])), (1, None)], 0), (vec![1], false));
        assert_eq!(reached(&[(0, Some(&[1, 2])), (1, Some(&[])), (2, Some(&[3]))], 0), (vec![1, 2, 3], false));
    }

    #[test]
    fn kinds_reached() {
        let shape = |above: &[u32]| ShapeRow { attributes: 0, tags: None, above: above.to_vec() };
        let unfit = |parents: &[(u32, Option<&[u32]>)], above: [&[u32]; 2]| {
            let (values, entities) = lines(parents);
            Parents::of(&values, &entities).first_unfit(&entities, &above.map(shape))
        };
        let row: &[(u32, Option<&[u32]>)] = &[(0, Some(&[1])), (1, Some(&[2])), (2, Some(&[3]))];
        assert_eq!(unfit(row, [&[0, 1], &[0]]), None);
        assert_eq!(unfit(row, [&[1], &[0]]), Some(0));
        assert_eq!(unfit(&[(0, None), (1, Some(&[2])), (2, Some(&[3]))], [&[1], &[0]]), Some(1));
        assert_eq!(unfit(&[(0, None), (1, Some(&[2])), (2, None)], [&[1], &[0]]), None);
        // In a circle the own kind is reached.
        assert_eq!(unfit(&[(0, Some(&[2])), (2, Some(&[0]))], [&[1], &[0, 1]]), Some(0));
        assert_eq!(unfit(&[(0, Some(&[2])), (2, Some(&[0]))], [&[0, 1], &[0]]), Some(1));
    }
}
