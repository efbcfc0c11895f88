"""One page a job: what `tools/page` puts together. `facts` asks the program, `document` makes the page."""
