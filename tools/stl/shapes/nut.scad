// A small six-sided block with a hole: a mesh with a handle, far from the origin.
translate([1000, -2000, 0.001]) difference() {
    cylinder(r = 10, h = 8, $fn = 6);
    translate([0, 0, -1]) cylinder(r = 5, h = 10, $fn = 5);
}
