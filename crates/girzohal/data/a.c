int x;
int totl;
