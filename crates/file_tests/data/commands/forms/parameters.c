int main(int argc) {
}
