# 1 "/home/user1/project/src/main.c"
# 1 "/home/user1/project/include/main.h" 1
int half(int whole);
# 2 "/home/user1/project/src/main.c" 2
# 1 "/home/user2/other/other.h" 1
int half(int whole) { return whole / 2; }
