// A ball, coarse enough for a file of a few facets.
SetFactory("OpenCASCADE");
Sphere(1) = {0, 0, 0, 1};
Mesh.MeshSizeMin = 2;
Mesh.MeshSizeMax = 2;
