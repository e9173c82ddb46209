/*
 * Stands for the calls with wear where the archive has none (crates.txt lists no yawlspar_wear_c), so that what makes
 * them among other calls links. Nothing makes one then: a program that does is ended by a signal.
 */
void yawlspar_tick_wear(void);
void yawlspar_script_wear(void);
void yawlspar_wear_text(void);

void yawlspar_tick_wear(void)
{
    __builtin_trap();
}

void yawlspar_script_wear(void)
{
    __builtin_trap();
}

void yawlspar_wear_text(void)
{
    __builtin_trap();
}
