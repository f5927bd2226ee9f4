char before[300] = {1};
int chosen = 77;
