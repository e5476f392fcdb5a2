// Calls a virtual function that the object's class doesn't have yet.
struct Part {
    Part();
    virtual ~Part() {}
    virtual void act() = 0;
};

__attribute__((noinline)) static void make_act(Part *part)
{
    part->act();
}

Part::Part()
{
    make_act(this);
}

struct Whole : Part {
    void act() override {}
};

int main()
{
    Part *part = new Whole;
    delete part;
}
