/* What an object or an archive has. */
int answer(void);

int answer(void)
{
    return 42;
}
