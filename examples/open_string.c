char *s = "ab;
