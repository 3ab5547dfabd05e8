"""What tools/jobs is made of: layout (the job table), floats (numbers of both widths), host, records, make, show, diff,
arms with its picture, plane."""
