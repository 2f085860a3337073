// A tank with a manhole's neck on its roof, by OpenCASCADE's solids.
SetFactory("OpenCASCADE");
Cylinder(1) = {0, 0, 0, 0, 0, 4.3, 2.2};
Cylinder(2) = {1, 0, 4, 0, 0, 1.3, 0.6};
BooleanUnion{ Volume{1}; Delete; }{ Volume{2}; Delete; }
Mesh.MeshSizeMax = 0.4;
