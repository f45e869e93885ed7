"""An independent keeper of the charge book, written from document 01 alone, and the runs that compare it with ours."""
