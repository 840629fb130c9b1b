/* Fills a table with squares; the count has one zero too many. */
void fill(unsigned *to, unsigned long count);

static unsigned table[1000];
unsigned long count = 10000;

int main(void)
{
    fill(table, count);
    return table[999] != 999 * 999;
}
