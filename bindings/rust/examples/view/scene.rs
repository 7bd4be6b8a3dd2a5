//! The points as places in metres, as lidar.rs makes them of their angles.

use crate::file::counted;
use lidar::Point;

/// Whose polar points they are, which says what their angles mean.
#[derive(Clone, Copy, Debug, PartialEq, Eq)]
pub enum Angles {
    /// Elevation and azimuth in degrees, with azimuth 0 along y, turning to x.
    Velodyne,
    /// Elevation in degrees and azimuth in radians, with azimuth 0 along x, turning to y.
    Ouster,
    /// The angle from the zenith and azimuth, both in degrees, with azimuth 0 along x, turning to y.
    Livox,
}

#[derive(Clone, Copy, Debug, PartialEq)]
pub struct Dot {
    pub x: f64,
    pub y: f64,
    pub z: f64,
    pub range: f64,
}

impl Dot {
    fn new(point: &Point, angles: Angles) -> Dot {
        match *point {
            Point::Cartesian { x, y, z } => {
                let [x, y, z] = [x, y, z].map(f64::from);
                let range = (x * x + y * y + z * z).sqrt();
                Dot { x, y, z, range }
            }
            Point::Polar {
                range,
                elevation,
                azimuth,
            } => {
                let [range, elevation, azimuth] = [range, elevation, azimuth].map(f64::from);
                let (up, around) = match angles {
                    Angles::Velodyne => (elevation, 90.0 - azimuth),
                    Angles::Ouster => (elevation, azimuth.to_degrees()),
                    Angles::Livox => (90.0 - elevation, azimuth),
                };
                let (up, around) = (up.to_radians(), around.to_radians());
                Dot {
                    x: range * up.cos() * around.cos(),
                    y: range * up.cos() * around.sin(),
                    z: range * up.sin(),
                    range,
                }
            }
        }
    }
}

/// What is drawn, and how many points are not.
pub struct Scene {
    pub dots: Vec<Dot>,
    not_finite: usize,
    beyond: usize,
    within: f64,
}

impl Scene {
    pub fn new(points: &[Point], angles: Angles, within: f64) -> Scene {
        let mut scene = Scene {
            dots: Vec::new(),
            not_finite: 0,
            beyond: 0,
            within,
        };
        for point in points {
            let dot = Dot::new(point, angles);
            if ![dot.x, dot.y, dot.z]
                .iter()
                .all(|number| number.is_finite())
            {
                scene.not_finite += 1;
            } else if dot.range > within {
                scene.beyond += 1;
            } else {
                scene.dots.push(dot);
            }
        }
        scene
    }

    /// What stands below the file's name: what it is, when it was captured, and what is left out.
    pub fn caption(&self, what: &str, captured: Option<&str>) -> Vec<String> {
        let mut lines = vec![what.to_string()];
        lines.extend(captured.map(str::to_string));
        let mut left_out = Vec::new();
        if self.not_finite > 0 {
            left_out.push(format!("{} not finite", counted(self.not_finite, "point")));
        }
        if self.beyond > 0 {
            let beyond = counted(self.beyond, "point");
            left_out.push(format!("{beyond} beyond {} m", self.within));
        }
        if !left_out.is_empty() {
            lines.push(format!("left out: {}", left_out.join(" and ")));
        } else if self.dots.is_empty() {
            lines.push("there is no point to draw".to_string());
        }
        lines
    }
}

#[cfg(test)]
mod tests {
    use super::*;

    fn near(dot: Dot, [x, y, z]: [f64; 3]) {
        let far = (dot.x - x)
            .abs()
            .max((dot.y - y).abs())
            .max((dot.z - z).abs());
        assert!(far < 1e-6, "{dot:?}");
    }

    fn polar(range: f32, elevation: f32, azimuth: f32) -> Point {
        Point::Polar {
            range,
            elevation,
            azimuth,
        }
    }

    #[test]
    fn angles_mean_what_the_reader_says() {
        let quarter = std::f32::consts::FRAC_PI_2;
        near(
            Dot::new(&polar(2.0, 0.0, 0.0), Angles::Velodyne),
            [0.0, 2.0, 0.0],
        );
        near(
            Dot::new(&polar(2.0, 0.0, 90.0), Angles::Velodyne),
            [2.0, 0.0, 0.0],
        );
        near(
            Dot::new(&polar(2.0, 90.0, 0.0), Angles::Velodyne),
            [0.0, 0.0, 2.0],
        );
        near(
            Dot::new(&polar(2.0, 0.0, 0.0), Angles::Ouster),
            [2.0, 0.0, 0.0],
        );
        near(
            Dot::new(&polar(2.0, 0.0, quarter), Angles::Ouster),
            [0.0, 2.0, 0.0],
        );
        near(
            Dot::new(&polar(2.0, -90.0, 0.0), Angles::Ouster),
            [0.0, 0.0, -2.0],
        );
        near(
            Dot::new(&polar(2.0, 90.0, 0.0), Angles::Livox),
            [2.0, 0.0, 0.0],
        );
        near(
            Dot::new(&polar(2.0, 90.0, 90.0), Angles::Livox),
            [0.0, 2.0, 0.0],
        );
        near(
            Dot::new(&polar(2.0, 0.0, 0.0), Angles::Livox),
            [0.0, 0.0, 2.0],
        );
    }

    #[test]
    fn what_cannot_be_drawn_is_left_out_and_counted() {
        let at = |x, y, z| Point::Cartesian { x, y, z };
        let points = [
            at(1.0, 2.0, 2.0),
            at(f32::NAN, 0.0, 0.0),
            at(0.0, f32::INFINITY, 0.0),
            at(0.0, 0.0, f32::NEG_INFINITY),
            polar(f32::NAN, 0.0, 0.0),
            polar(1.0, f32::NAN, 0.0),
            at(1000.0, 0.0, 0.0),
            at(1000.1, 0.0, 0.0),
            at(0.0, 0.0, -1000.1),
            at(f32::MAX, f32::MAX, f32::MAX),
        ];
        let scene = Scene::new(&points, Angles::Livox, 1000.0);
        assert_eq!(
            (scene.dots.len(), scene.not_finite, scene.beyond),
            (2, 5, 3)
        );
        assert_eq!(scene.dots[0].range, 3.0);
        assert_eq!(
            scene.caption("Velodyne, 10 points", Some("captured then")),
            [
                "Velodyne, 10 points",
                "captured then",
                "left out: 5 points not finite and 3 points beyond 1000 m"
            ]
        );
        let all = Scene::new(&points[..1], Angles::Livox, 3.0);
        assert_eq!(all.caption("KITTI, 1 point", None), ["KITTI, 1 point"]);
        let none = Scene::new(&points[..1], Angles::Livox, 2.9);
        assert_eq!(none.caption("a", None)[1], "left out: 1 point beyond 2.9 m");
        let empty = Scene::new(&[], Angles::Livox, 1.0);
        assert_eq!(empty.caption("a", None)[1], "there is no point to draw");
    }
}
