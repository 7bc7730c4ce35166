//! The vertices and faces of solids.

use crate::fraction::Fraction;
use crate::frame::{Point, Scope};

#[derive(Clone, Copy, PartialEq)]
pub enum Solid {
    Cube,
    Quad,
    Shed,
    Gable,
    Hip,
}

type Faces = &'static [&'static [usize]];

const CUBE: Faces = &[&[4, 3, 7, 8], &[3, 2, 6, 7], &[2, 1, 5, 6], &[1, 4, 8, 5], &[8, 7, 6, 5], &[1, 2, 3, 4]];
const QUAD: Faces = &[&[1, 2, 3, 4]];
const SHED: Faces = &[&[4, 3, 5, 6], &[3, 2, 5], &[2, 1, 6, 5], &[1, 4, 6], &[1, 2, 3, 4]];
const RIDGE_ALONG_X: Faces = &[&[4, 3, 6, 5], &[3, 2, 6], &[2, 1, 5, 6], &[1, 4, 5], &[1, 2, 3, 4]];
const RIDGE_ALONG_Z: Faces = &[&[4, 3, 6], &[3, 2, 5, 6], &[2, 1, 5], &[1, 4, 6, 5], &[1, 2, 3, 4]];
const PYRAMID: Faces = &[&[4, 3, 5], &[3, 2, 5], &[2, 1, 5], &[1, 4, 5], &[1, 2, 3, 4]];

/// Faces are by the numbers of vertices, from 1.
pub struct Mesh {
    pub vertices: Vec<Point>,
    pub faces: Faces,
}

/// A size that the solid needs is 0: a quad needs no depth.
pub fn lacks_size(solid: Solid, scope: &Scope) -> bool {
    let needed = if solid == Solid::Quad { 2 } else { 3 };
    scope.size[..needed].iter().any(|size| size.is_zero())
}

pub fn mesh(solid: Solid, scope: &Scope) -> Mesh {
    let ([w, h, d], o) = (scope.size, Fraction::ZERO);
    let (above, faces) = match solid {
        Solid::Quad => (vec![[w, h, o], [o, h, o]], QUAD),
        Solid::Cube => (vec![[o, h, o], [w, h, o], [w, h, d], [o, h, d]], CUBE),
        Solid::Shed => (vec![[w, h, d], [o, h, d]], SHED),
        Solid::Gable if w >= d => (vec![[o, h, d.half()], [w, h, d.half()]], RIDGE_ALONG_X),
        Solid::Gable => (vec![[w.half(), h, o], [w.half(), h, d]], RIDGE_ALONG_Z),
        Solid::Hip if w > d => (vec![[d.half(), h, d.half()], [w - d.half(), h, d.half()]], RIDGE_ALONG_X),
        Solid::Hip if w < d => (vec![[w.half(), h, w.half()], [w.half(), h, d - w.half()]], RIDGE_ALONG_Z),
        Solid::Hip => (vec![[w.half(), h, w.half()]], PYRAMID),
    };
    let base = [[o, o, o], [w, o, o], [w, o, d], [o, o, d]];
    let below = if solid == Solid::Quad { &base[..2] } else { &base[..] };
    let vertices = below.iter().chain(&above).map(|at| scope.place(*at)).collect();
    Mesh { vertices, faces }
}
