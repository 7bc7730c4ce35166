//! The parts of Subdiv and Repeat, and the faces, edges and vertices of a scope.

use crate::fraction::Fraction;
use crate::frame::{Frame, Point, Scope, X, Y};
use crate::values::Fault;

const MOST_COPIES: i64 = 10_000;

/// Each size is whether it is relative, and a number.
pub fn subdivide(scope: &Scope, axis: usize, sizes: &[(bool, Fraction)]) -> Result<Vec<Scope>, Fault> {
    let size = scope.size[axis];
    if size.is_zero() {
        return Err(Fault::FlatScope);
    }
    if sizes.iter().any(|(_, number)| !number.is_positive()) {
        return Err(Fault::PartNotPositive);
    }
    let (absolute, factors) = (sum(sizes, false), sum(sizes, true));
    let is_off = if factors.is_zero() { absolute != size } else { absolute >= size };
    if is_off {
        return Err(Fault::SubdivSum);
    }
    Ok(cut(scope, axis, sizes, size - absolute, factors))
}

fn sum(sizes: &[(bool, Fraction)], relative: bool) -> Fraction {
    let own = sizes.iter().filter(|(is_relative, _)| *is_relative == relative);
    own.fold(Fraction::ZERO, |sum, (_, number)| sum + *number)
}

/// One part behind the other; a relative size has its share of the rest.
fn cut(scope: &Scope, axis: usize, sizes: &[(bool, Fraction)], rest: Fraction, factors: Fraction) -> Vec<Scope> {
    let mut start = Fraction::ZERO;
    let part = |&(is_relative, number): &(bool, Fraction)| {
        let length = if is_relative { rest * number / factors } else { number };
        let part = scope.part(axis, start, length);
        start = start + length;
        part
    };
    sizes.iter().map(part).collect()
}

pub fn repeat(scope: &Scope, axis: usize, length: Fraction) -> Result<Vec<Scope>, Fault> {
    let size = scope.size[axis];
    if size.is_zero() {
        return Err(Fault::FlatScope);
    }
    if !length.is_positive() {
        return Err(Fault::PartNotPositive);
    }
    let count = (size / length).ceil();
    if count > MOST_COPIES {
        return Err(Fault::RepeatCount);
    }
    let step = size / Fraction::whole(count);
    Ok((0..count).map(|i| scope.part(axis, step * Fraction::whole(i), step)).collect())
}

/// Which components; a face by its place in the order of all, an edge by its number from 1.
#[derive(PartialEq)]
pub enum Selector {
    Faces,
    SideFaces,
    Face(usize),
    Edges,
    Edge(usize),
    Vertices,
}

pub fn components(scope: &Scope, selector: &Selector) -> Result<Vec<Scope>, Fault> {
    let flat = scope.size.iter().filter(|size| size.is_zero()).count();
    let is_of_faces = matches!(selector, Selector::Faces | Selector::SideFaces | Selector::Face(_));
    if flat > usize::from(!is_of_faces) {
        return Err(Fault::FlatScope);
    }
    Ok(match selector {
        Selector::Faces => (0..6).map(|side| face(scope, side)).collect(),
        Selector::SideFaces => (0..4).map(|side| face(scope, side)).collect(),
        Selector::Face(side) => vec![face(scope, *side)],
        Selector::Edges => edges(scope),
        Selector::Edge(number) => vec![*edges(scope).get(number - 1).ok_or(Fault::FlatScope)?],
        Selector::Vertices => vertices(scope),
    })
}

fn component(scope: &Scope, at: Point, frame: Frame, size: Point) -> Scope {
    Scope { at: scope.place(at), frame, size }
}

/// Front, right, back, left, top or bottom. The third size is 0, and the third axis points outwards.
fn face(scope: &Scope, side: usize) -> Scope {
    let [x, y, z] = scope.frame;
    let ([w, h, d], o) = (scope.size, Fraction::ZERO);
    match side {
        0 => component(scope, [o, o, d], [x, y, z], [w, h, o]),
        1 => component(scope, [w, o, d], [z.opposite(), y, x], [d, h, o]),
        2 => component(scope, [w, o, o], [x.opposite(), y, z.opposite()], [w, h, o]),
        3 => component(scope, [o, o, o], [z, y, x.opposite()], [d, h, o]),
        4 => component(scope, [o, h, d], [x, z.opposite(), y], [w, d, o]),
        _ => component(scope, [o, o, o], [x, z, y.opposite()], [w, d, o]),
    }
}

/// The offsets along an axis: low and high, or low alone where it is flat.
fn ends(size: Fraction) -> Vec<Fraction> {
    if size.is_zero() {
        vec![size]
    } else {
        vec![Fraction::ZERO, size]
    }
}

/// All offsets by three axes, the last one first.
fn offsets(ends: [&[Fraction]; 3]) -> Vec<Point> {
    let mut offsets = Vec::new();
    for a in ends[0] {
        for b in ends[1] {
            offsets.extend(ends[2].iter().map(|c| [*a, *b, *c]));
        }
    }
    offsets
}

fn edges(scope: &Scope) -> Vec<Scope> {
    (0..3).filter(|axis| !scope.size[*axis].is_zero()).flat_map(|axis| edges_along(scope, axis)).collect()
}

fn edges_along(scope: &Scope, axis: usize) -> Vec<Scope> {
    let [x, y, z] = scope.frame;
    let frame = match axis {
        X => [x, y, z],
        Y => [y, x.opposite(), z],
        _ => [z, y, x.opposite()],
    };
    let mut ends = scope.size.map(ends);
    ends[axis].truncate(1);
    let size = [scope.size[axis], Fraction::ZERO, Fraction::ZERO];
    let places = offsets([&ends[0], &ends[1], &ends[2]]);
    places.into_iter().map(|at| component(scope, at, frame, size)).collect()
}

fn vertices(scope: &Scope) -> Vec<Scope> {
    let [w, h, d] = scope.size.map(ends);
    let places = offsets([&w, &h, &d]);
    places.into_iter().map(|at| component(scope, at, scope.frame, [Fraction::ZERO; 3])).collect()
}
