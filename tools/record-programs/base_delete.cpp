// Deletes an object by its base class, which has no virtual destructor. @stops wrong size 112 16
struct Base {
    int kind = 1;
};

struct Derived : Base {
    char more[100] = {};
};

static Base *make()
{
    return new Derived; // @allocated
}

int main()
{
    Base *volatile base = make();
    delete base; // @here
    return 0;
}
