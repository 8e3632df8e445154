// The cases K1 to K10 of document 01, refusals, and the packed form.
use khimdorae_walls::*;

fn building() -> WallBuilding {
    WallBuilding {
        tile: TilePosition { x: 0, y: 0 },
        footprint: DepotFootprint { width_tiles: 1, height_tiles: 1 },
        collision: CollisionBounds { left: 16, top: 16, right: 15, bottom: 15 },
    }
}

fn window(low: i32, high: i32) -> PixelRect {
    PixelRect { left: low, top: low, right: high, bottom: high }
}

fn at(x: u32, y: u32) -> PixelPosition {
    PixelPosition { x, y }
}

fn query(window: PixelRect, start: PixelPosition, end: PixelPosition, buildings: Vec<WallBuilding>) -> WallQuery {
    WallQuery { window, start, end, mover: CollisionBounds::default(), buildings }
}

fn k1() -> WallQuery {
    query(window(30, 36), at(31, 32), at(32, 31), vec![building()])
}

// K2's window and ends.
fn small(buildings: Vec<WallBuilding>) -> WallQuery {
    query(window(40, 41), at(40, 40), at(40, 40), buildings)
}

fn check(obstacles: &[PixelRect], query: &WallQuery) -> WallCheck {
    check_wall(&TerrainGrid::open(8, 8), obstacles, query).unwrap()
}

#[test]
fn k1_goes_round_the_corner() {
    let c = check(&[], &k1());
    assert_eq!(c.placements, [WallPlacement { footprint: window(0, 32), collision: window(0, 32), issues: vec![] }]);
    assert_eq!((c.passage, c.baseline_passable, c.window), (WallPassage::Open, true, window(30, 36)));
    assert_eq!(c.route, [at(31, 32), at(32, 32), at(32, 31)]);
}

#[test]
fn k2_is_one_point() {
    let c = check(&[], &small(vec![]));
    assert_eq!((c.passage, c.route), (WallPassage::Open, vec![at(40, 40)]));
}

#[test]
fn k3_starts_inside_a_building() {
    let c = check(&[], &query(window(0, 20), at(10, 10), at(10, 10), vec![building()]));
    assert_eq!((c.passage, c.baseline_passable, c.route), (WallPassage::StartBlocked, true, vec![]));
}

#[test]
fn k4_touching_is_no_overlap() {
    let mut obstacle = PixelRect { left: 32, top: 0, right: 64, bottom: 32 };
    assert_eq!(check(&[obstacle], &small(vec![building()])).placements[0].issues, []);
    obstacle.left = 31;
    assert_eq!(check(&[obstacle], &small(vec![building()])).placements[0].issues, [PlacementIssue::OverlapsObstacle { index: 0 }]);
}

#[test]
fn k5_and_k6_widen_by_the_mover() {
    let obstacle = [PixelRect { left: 20, top: 0, right: 24, bottom: 64 }];
    for (mover, obstacles, free, blocked) in [((3, 4), &[][..], [3, 59], [2, 60]), ((2, 1), &obstacle[..], [18, 26], [19, 25])] {
        for (xs, passage) in [(free, WallPassage::Open), (blocked, WallPassage::StartBlocked)] {
            for x in xs {
                let mut q = query(window(0, 64), at(x, 10), at(x, 10), vec![]);
                q.mover = CollisionBounds { left: mover.0, right: mover.1, ..q.mover };
                assert_eq!(check(obstacles, &q).passage, passage, "x = {x}");
            }
        }
    }
}

#[test]
fn k7_was_disconnected_before() {
    let obstacle = [PixelRect { left: 20, top: 0, right: 24, bottom: 64 }];
    let c = check(&obstacle, &query(window(0, 64), at(10, 10), at(40, 10), vec![]));
    assert_eq!((c.passage, c.baseline_passable), (WallPassage::AlreadyDisconnected, false));
    let c = check(&obstacle, &query(window(0, 64), at(10, 10), at(40, 10), vec![building()]));
    assert_eq!((c.passage, c.baseline_passable), (WallPassage::StartBlocked, false));
}

#[test]
fn k8_takes_the_straight_step_first() {
    assert_eq!(check(&[], &query(window(0, 64), at(0, 0), at(2, 1), vec![])).route, [at(0, 0), at(1, 0), at(2, 1)]);
}

#[test]
fn k9_has_two_issues_in_order() {
    let mut grid = TerrainGrid::open(8, 8);
    grid.cells[0] = 16;
    let mut b = building();
    b.collision.left = 17;
    let c = check_wall(&grid, &[], &small(vec![b])).unwrap();
    assert_eq!(c.placements[0].issues, [PlacementIssue::OutOfMap, PlacementIssue::UnbuildableTerrain]);
}

#[test]
fn k10_overflows_upwards() {
    let mut b = building();
    b.tile.x = 67_108_862;
    b.collision = CollisionBounds { right: 46, ..CollisionBounds::default() };
    assert!(check_wall(&TerrainGrid::open(8, 8), &[], &small(vec![b])).is_ok());
    b.collision.right = 47;
    assert_eq!(check_wall(&TerrainGrid::open(8, 8), &[], &small(vec![b])), Err(WallError::CoordinateOverflow { index: 0 }));
}

#[test]
fn refusals_carry_their_values() {
    let grid = TerrainGrid::open(8, 8);
    let mut short = grid.clone();
    short.cells.pop();
    assert_eq!(check_wall(&short, &[], &k1()), Err(WallError::CellLength { width: 8, height: 8, expected: 64, actual: 63 }));
    assert_eq!(check_wall(&TerrainGrid::open(0, 9), &[], &k1()), Err(WallError::InvalidGridDimensions { width: 0, height: 9 }));
    assert_eq!(check_wall(&grid, &[PixelRect::default()], &k1()), Err(WallError::InvalidObstacle { index: 0 }));
    assert_eq!(check_wall(&grid, &[], &WallQuery { end: at(36, 31), ..k1() }), Err(WallError::EndpointOutsideWindow { endpoint: WallEndpoint::End, x: 36, y: 31 }));
    assert_eq!(check_wall(&grid, &[], &WallQuery { buildings: vec![building(); 33], ..k1() }), Err(WallError::TooManyBuildings { actual: 33 }));
    let huge = PixelRect { left: i32::MIN, top: i32::MIN, right: i32::MAX, bottom: i32::MAX };
    assert_eq!(check_wall(&grid, &[], &WallQuery { window: huge, ..k1() }), Err(WallError::InvalidWindow));
    let steep = TerrainCell { walkable: true, terrain_buildable: true, elevation: 9, ramp: false };
    let grid = TerrainGrid::from_cells(1, 1, &[steep]);
    assert_eq!(check_wall(&grid, &[], &k1()), Err(WallError::InvalidElevation { index: 0, elevation: 3 }));
}

#[test]
fn a_route_passes_its_own_test() {
    let grid = TerrainGrid::open(8, 8);
    let route = check(&[], &k1()).route;
    let mut checker = Checker::default();
    assert_eq!(checker.test_route(&grid, &[], &k1(), &route), Ok(true));
    // Past the building's corner, and off all maps.
    assert_eq!(checker.test_route(&grid, &[], &k1(), &[at(31, 32), at(32, 31)]), Ok(false));
    assert_eq!(checker.test_route(&grid, &[], &k1(), &[at(31, 32), at(65_568, 32), at(32, 31)]), Ok(false));
    assert_eq!(checker.test_route(&grid, &[], &k1(), &[]), Ok(false));
}

// K1's input, 125 bytes.
fn packed_k1() -> Vec<u8> {
    let mut bytes = vec![0x01, 0xC0, 0x70, 0x00, 0x01];
    for _ in 0..8 {
        bytes.extend([0xC6, 0x31, 0x8C, 0x63, 0x18]);
    }
    for word in [30, 30, 36, 36, 31, 32, 32, 31, 0, 0, 0, 0, 0, 0, 1, 1, 16, 16, 15, 15u32] {
        bytes.extend(word.to_be_bytes());
    }
    bytes
}

#[test]
fn packed_k1_is_k1() {
    let bytes = packed_k1();
    assert_eq!(bytes.len(), 125);
    assert_eq!(read_packed(&bytes), Ok(PackedQuery { grid: TerrainGrid::open(8, 8), obstacles: vec![], query: k1() }));
    assert_eq!(check_packed(&bytes), Ok(check(&[], &k1())));
    assert_eq!(check_packed(&bytes[..124]), Err(WallError::PackedShort));
    assert_eq!(check_packed(&bytes[..4]), Err(WallError::PackedShort));
    assert_eq!(check_packed(&[&bytes[..], &[0]].concat()), Err(WallError::PackedTail));
}

#[test]
fn a_checker_can_be_used_again() {
    let mut checker = Checker::default();
    let grid = TerrainGrid::open(8, 8);
    let big = query(window(0, 64), at(0, 0), at(63, 63), vec![]);
    assert_eq!(checker.check_wall(&grid, &[], &big), check_wall(&grid, &[], &big));
    assert_eq!(checker.check_wall(&grid, &[], &k1()), check_wall(&grid, &[], &k1()));
    assert_eq!(checker.check_wall(&grid, &[], &big).unwrap().route.len(), 64);
}

#[test]
fn only_a_window_of_1024_a_side_is_too_large_past_it() {
    let grid = TerrainGrid::open(129, 1);
    let row = |right: i32| query(PixelRect { left: 0, top: 0, right, bottom: 1 }, at(0, 0), at(0, 0), vec![]);
    assert!(check_wall(&grid, &[], &row(1024)).is_ok());
    assert_eq!(check_wall(&grid, &[], &row(1025)), Err(WallError::WindowTooLarge { width: 1025, height: 1 }));
}
