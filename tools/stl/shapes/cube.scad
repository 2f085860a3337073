// A box with three different edges, one corner at the origin.
cube([1, 2, 3]);
