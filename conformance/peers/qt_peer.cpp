// Qt: QCborValue::fromCbor, behind which nothing may be left, and toCbor. It has no canonical option; maps keep their order.
#include <QtCore/QCborMap>
#include <QtCore/QCborValue>
#include <iostream>
#include <string>

int main() {
    for (std::string line; std::getline(std::cin, line);) {
        QByteArray block = QByteArray::fromHex(QByteArray::fromStdString(line));
        QCborParserError error;
        QCborValue value = QCborValue::fromCbor(block, &error);
        if (error.error != QCborError::NoError)
            std::cout << "refused " << error.errorString().toStdString() << std::endl;
        else if (error.offset < block.size())
            std::cout << "refused trailing" << std::endl;
        else
            std::cout << "ok " << value.toCbor().toHex().toStdString() << std::endl;
    }
}
