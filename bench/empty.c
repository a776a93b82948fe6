/* The empty process that the program is measured against. */
int main(void)
{
    return 0;
}
