begin_version
3
end_version
begin_metric
1
end_metric
1
begin_variable
var0
-1
3
Atom at(p0)
Atom at(p1)
Atom at(p2)
end_variable
0
begin_state
0
end_state
begin_goal
1
0 2
end_goal
3
begin_operator
go01
0
1
0 0 0 1
1
end_operator
begin_operator
go12
0
1
0 0 1 2
1
end_operator
begin_operator
jump
0
1
0 0 0 2
5
end_operator
0
