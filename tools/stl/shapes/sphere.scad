// A ball: corners that are no round numbers, and both signs.
sphere(r = 2.5, $fn = 20);
