//! Shapes whose shells are put into a grid: the voxels near their surfaces, with the distances.

use crate::grids::Point;

/// Signed distance, in voxels: negative inside.
pub type Shape = fn([f32; 3]) -> f32;

fn length(parts: &[f32]) -> f32 {
    parts.iter().map(|part| part * part).sum::<f32>().sqrt()
}

/// A hollow sphere.
fn sphere([x, y, z]: [f32; 3]) -> f32 {
    (length(&[x - 41.3, y - 40.1, z - 42.7]) - 30.2).abs() - 2.5
}

/// Half a ring with a wall, open at its two ends, over the middle of the grid.
fn bent_tube([x, y, z]: [f32; 3]) -> f32 {
    let from_its_middle = length(&[length(&[x - 64.2, z - 60.4]) - 36.3, y - 63.8]);
    ((from_its_middle - 11.6).abs() - 1.8).max(60.4 - z)
}

/// A box with a wall and a round vent through two sides, off the grid's other end.
fn box_with_a_vent([x, y, z]: [f32; 3]) -> f32 {
    let beyond = [(x - 90.3).abs() - 24.1, (y - 80.2).abs() - 30.4, (z - 92.6).abs() - 20.3];
    let outside = length(&beyond.map(|part| part.max(0.0)));
    let distance = outside + beyond.into_iter().fold(f32::MIN, f32::max).min(0.0);
    let wall = (distance + 2.2).abs() - 2.2;
    wall.max(7.4 - length(&[x - 90.3, z - 92.6]))
}

pub const SHAPES: [Shape; 3] = [sphere, bent_tube, box_with_a_vent];

/// The voxels nearer to a shape's surface than this, with their distances, none of which is a zero.
pub fn band(shape: Shape, width: f32) -> impl Iterator<Item = (Point, f32)> {
    (0..128 * 128 * 128).map(|i| [i >> 14, i >> 7 & 127, i & 127]).filter_map(move |at| {
        let distance = shape(at.map(|coordinate| coordinate as f32));
        let value = if distance == 0.0 { f32::MIN_POSITIVE } else { distance };
        (distance.abs() < width).then_some((at, value))
    })
}
