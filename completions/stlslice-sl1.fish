# Completions of stlslice-sl1 and stlslice-pngs for fish.

for command in stlslice-sl1 stlslice-pngs
    complete -c $command -l printer -x -a 'SL1\t"Original Prusa SL1" SL1S\t"Original Prusa SL1S SPEED" help\t"list them"' -d 'A printer that is known by name'
    complete -c $command -l canvas -x -d 'Pixels of the screen, COLUMNSxROWS'
    complete -c $command -l pitch -x -d 'A pixel in micrometres, as 50, 47.25 or 19x24'
    complete -c $command -l layer -x -d 'Height of a layer in micrometres (default 50)'
    complete -c $command -l height -x -d 'The printer\'s height in mm'
    complete -c $command -l turn -f -a 'auto\t"only if it does not fit otherwise"' -d 'Turn the part by a quarter'
    complete -c $command -l rule -x -a 'evenodd\t"overlaps of shells stay dark" nonzero\t"overlaps are lit, and shells inside out" positive\t"overlaps are lit, as supports need"' -d 'Which pixels are lit (default positive)'
    complete -c $command -l unit -x -a 'mm cm m inch' -d 'Unit of the part\'s numbers (default mm)'
    complete -c $command -l shells -d 'Slice the shells in groups and join the images'
    complete -c $command -l mirror-x -d 'Swap left and right'
    complete -c $command -l mirror-y -d 'Swap top and bottom'
    complete -c $command -l depth -x -a '1 8' -d 'Bits of a PNG\'s pixel (default 8)'
    complete -c $command -l workers -x -a '1 2 4 8 16 32 64' -d 'Threads of the slicer, 1 to 64'
    complete -c $command -l json -d 'Write the last line as JSON'
    complete -c $command -s h -l help -d 'Show the options'
end
complete -c stlslice-sl1 -l exposure -x -d 'Seconds a layer is exposed'
complete -c stlslice-sl1 -l first-exposure -x -d 'Seconds the first layers are exposed'
complete -c stlslice-sl1 -l fade -x -d 'Layers over which the exposure fades (default 10)'
complete -c stlslice-sl1 -l material -x -d 'The resin\'s name'
