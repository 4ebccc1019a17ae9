# Completions of stlslice for fish.

complete -c stlslice -f
complete -c stlslice -l pitch -x -d 'Width and depth of a pixel in micrometres, 1 to 100000'
complete -c stlslice -l layer -x -d 'Height of a layer in micrometres, 1 to 100000'
complete -c stlslice -l rule -x -a 'evenodd\t"overlaps of shells stay empty" nonzero\t"overlaps are filled, and shells inside out" positive\t"overlaps are filled, as supports need"' -d 'Which pixels are filled (default evenodd)'
complete -c stlslice -l unit -x -a 'mm inch' -d 'Unit of the numbers in the input (default mm)'
complete -c stlslice -l grid -x -d 'COLUMNS,ROWS,LAYERS,X0,Y0,Z0 in place of the grid that fits the mesh'
complete -c stlslice -l workers -x -a '1 2 4 8 16 32 64' -d 'Number of threads that read, slice and draw, 1 to 64 (default 1)'
complete -c stlslice -l png -d 'Write PNGs in place of P4 images'
complete -c stlslice -l depth -x -a '8 1' -d 'Bits of a pixel of a PNG (default 8)'
complete -c stlslice -l mirror-x -d 'Mirror each PNG: the greatest x stands at the left'
complete -c stlslice -l mirror-y -d 'Mirror each PNG: the least y stands at the top'
complete -c stlslice -l report -d 'Write loops and areas in place of images'
complete -c stlslice -l box -d 'Write the count of facets and their box'
complete -c stlslice -l probe -x -d 'Write the crossings at the voxel I,J,K'
complete -c stlslice -l progress -d 'Show how far slicing is'
complete -c stlslice -s h -l help -d 'Show the options'
complete -c stlslice -s V -l version -d 'Show the version'
