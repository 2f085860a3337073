// A closed tank with a manhole on its roof, in metres: 24 panels around, the floor at z = 0.6, the roof at 4.9, the
// manhole's neck up to its cover at 5.9. examples/README.md has the command that makes tank.stl of it.
//
// The axis stands a little beside (2.5, 2.5), and the panels are turned by 4 degrees, so that no edge of the mesh lies
// above, beside or in line with a centre of the cells there.
translate([2.51, 2.48, 0.6]) rotate(4) {
    cylinder(r = 2.2, h = 4.3, $fn = 24);
    translate([1, 0, 4]) cylinder(r = 0.6, h = 1.3, $fn = 12);
}
