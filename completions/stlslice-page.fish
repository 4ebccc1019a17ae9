# Completions of stlslice-page for fish.

complete -c stlslice-page -l pitch -x -d 'Width and depth of a pixel in micrometres (default 50)'
complete -c stlslice-page -l layer -x -d 'Height of a layer in micrometres (default 50)'
complete -c stlslice-page -l rule -x -a 'positive nonzero evenodd' -d 'Which pixels are filled (default positive)'
complete -c stlslice-page -l unit -x -a 'mm cm m inch' -d 'Unit of the part\'s numbers (default mm)'
complete -c stlslice-page -l canvas -x -d 'Pixels of a screen with the part in its middle, COLUMNSxROWS'
complete -c stlslice-page -l title -x -d 'The heading of the page'
complete -c stlslice-page -l workers -x -a '1 2 4 8 16 32 64' -d 'Threads of the slicer, 1 to 64'
complete -c stlslice-page -l json -d 'Write the last line as JSON'
complete -c stlslice-page -s h -l help -d 'Show the options'
