# the core
1 2
# each aggregation router to one or both of the core
1 11
1 12
1 13
2 13
1 14
2 14
2 15
2 16
# and to its neighbour
11 12
15 16
# a chain of access routers behind each, closed to a ring where there is a second link
11 101
101 102
102 103
103 11
12 111
111 112
112 113
13 121
121 122
122 123
123 124
124 13
14 131
131 132
132 133
133 134
134 14
15 141
141 142
142 143
16 151
151 152
152 153
153 16
152 154
