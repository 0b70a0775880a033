replay x
