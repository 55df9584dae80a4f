/* Runs what driven/lib.rs has: the wrapper's example with arguments, and its checks without. */
void run_checks(void);
int run_example(int argc, char **argv);

int main(int argc, char **argv)
{
    if (argc > 1)
        return run_example(argc, argv);
    run_checks();
    return 0;
}
